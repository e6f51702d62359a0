C     Nested loops over an array of two dimensions.
      PARAMETER (N=100)
      INTEGER A(N,N)
      DO 10 J=1,N
      DO 10 I=1,N
   10 A(I,J) = I*J
      K = 0
      DO 30 L=1,@N
      DO 20 J=1,N
      DO 20 I=1,N
   20 K = K+A(I,J)
   30 CONTINUE
      PRINT *, K
      END
