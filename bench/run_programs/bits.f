C     The ones among the bits of numbers, by division.
      K = 0
      DO 20 I=1,@N
      J = I
   10 IF (J.EQ.0) GO TO 20
      K = K+MOD(J,2)
      J = J/2
      GO TO 10
   20 CONTINUE
      PRINT *, K
      END
