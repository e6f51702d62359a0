C     An automaton of four states by a computed GO TO, on the digits of a sequence of numbers.
      K = 0
      M = 1
      J = 7
      DO 50 I=1,@N
      J = MOD(J*75+74,65537)
      GO TO (10,20,30,40), M
   10 M = 1+MOD(J,4)
      GO TO 50
   20 M = 1+MOD(J+1,4)
      GO TO 50
   30 M = 1+MOD(J+M,4)
      GO TO 50
   40 K = K+1
      M = 1
   50 CONTINUE
      PRINT *, K
      END
