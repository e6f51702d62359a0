C     A number of Fibonacci, by two functions that call each other: gfortran
C     compiles no function that calls itself by its own name.
      PRINT *, IFIB(@N)
      END
      INTEGER FUNCTION IFIB(N)
      IF (N .LT. 2) THEN
      IFIB = N
      ELSE
      IFIB = JFIB(N-1)+JFIB(N-2)
      END IF
      END
      INTEGER FUNCTION JFIB(N)
      IF (N .LT. 2) THEN
      JFIB = N
      ELSE
      JFIB = IFIB(N-1)+IFIB(N-2)
      END IF
      END
