C     The sieve of Eratosthenes.
      PARAMETER (N=100000)
      LOGICAL OUT(N)
      DO 40 L=1,@N
      DO 10 I=1,N
   10 OUT(I) = .FALSE.
      M = 0
      DO 30 I=2,N
      IF (OUT(I)) GO TO 30
      M = M+1
      DO 20 J=2*I,N,I
   20 OUT(J) = .TRUE.
   30 CONTINUE
   40 CONTINUE
      PRINT *, M
      END
