C     A barrier: no process goes on before all three have come.
      PROGRAM BARRIE
      INTEGER $COUNT, $OPEN, $DONE
      COMMON /SHARED/ $COUNT, $OPEN, $DONE, M(3), L(3)
      $COUNT = 0
C     In parentheses I is an expression: each process gets its value.
      DO 10 I = 1, 3
   10 CREATE PART((I))
      DO 20 I = 1, 3
   20 J = $DONE
      PRINT *, L(1), L(2), L(3)
      END
C     After the barrier each process reads what the others stored.
      SUBROUTINE PART(ME)
      INTEGER $COUNT, $OPEN, $DONE
      COMMON /SHARED/ $COUNT, $OPEN, $DONE, M(3), L(3)
      M(ME) = 10*ME
      CALL WAITAL(3)
      L(ME) = M(1)+M(2)+M(3)-M(ME)
      $DONE = 1
      END
C     The last one to come fills $OPEN; WAITF leaves it full for all.
      SUBROUTINE WAITAL(N)
      INTEGER $COUNT, $OPEN, $DONE
      COMMON /SHARED/ $COUNT, $OPEN, $DONE, M(3), L(3)
      K = $COUNT+1
      $COUNT = K
      IF (K .EQ. N) $OPEN = 1
      J = WAITF($OPEN)
      END
