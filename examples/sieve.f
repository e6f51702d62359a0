C     The sieve of Eratosthenes: how many primes there are up to 1000, and the last ones of them.
      PROGRAM SIEVE
      PARAMETER (N=1000)
      LOGICAL OUT(N)
      DATA OUT/N*.FALSE./
      M = 0
      DO 20 I=2,N
      IF (OUT(I)) GO TO 20
      M = M+1
      IF (I.GT.980) PRINT *, I
      DO 10 J=I*I,N,I
   10 OUT(J) = .TRUE.
   20 CONTINUE
      PRINT *, 'PRIMES UP TO ', N, ': ', M
      END
