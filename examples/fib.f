C     The numbers of Fibonacci, by a function that calls itself.
      PROGRAM FIBS
      DO 10 N = 1, 10
   10 PRINT *, N, IFIB(N)
      END
      INTEGER FUNCTION IFIB(N)
      IF (N .LT. 2) THEN
         IFIB = N
      ELSE
         IFIB = IFIB(N-1)+IFIB(N-2)
      END IF
      END
