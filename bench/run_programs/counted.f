C     A counted loop with a sum.
      K = 0
      DO 10 I=1,@N
   10 K = K+I
      PRINT *, K
      END
