C     A function changes COMMON between two operands of one expression.
      PROGRAM OPERS
      COMMON /COUNT/ K
      K = 1
      PRINT *, K+NEXT(10)+K
      K = 1
      PRINT *, NEXT(10)+K
      K = 1
      PRINT *, K+NEXT(10)
      END
      INTEGER FUNCTION NEXT(N)
      COMMON /COUNT/ K
      K = K+N
      NEXT = K
      END
