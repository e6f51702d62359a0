C     A loop that calls a subroutine of two arguments.
      K = 0
      DO 10 I=1,@N
   10 CALL ADD(K, I)
      PRINT *, K
      END
      SUBROUTINE ADD(K, I)
      K = K+I
      END
