C     The product of two matrices, of which one is in COMMON, by three loops that end at one statement.
      PROGRAM MATRIX
      PARAMETER (N=3)
      COMMON /FIRST/ A(N,N)
      INTEGER A, B(N,N), C(N,N)
      DATA B/1,2,3, 0,1,4, 5,6,0/, C/9*0/
      DO 10 J=1,N
      DO 10 I=1,N
   10 A(I,J) = 10*I+J
      DO 20 J=1,N
      DO 20 I=1,N
      DO 20 K=1,N
   20 C(I,J) = C(I,J)+A(I,K)*B(K,J)
      DO 30 I=1,N
   30 PRINT *, C(I,1), C(I,2), C(I,3)
      END
