C     A self-scheduled loop, whose iterations a function hands out.
      PROGRAM TICKET
      INTEGER $NEXT, $SUM, $DONE
      $NEXT = 1
      $SUM = 0
      DO 10 I = 1, 3
   10 CREATE WORK($NEXT, $SUM, $DONE)
      DO 20 I = 1, 3
   20 J = $DONE
      PRINT *, 'SQUARES UP TO 10 SUM TO ', $SUM
      END
      SUBROUTINE WORK($NEXT, $SUM, $DONE)
      INTEGER $NEXT, $SUM, $DONE
   10 N = ITAKE($NEXT)
      IF (N .GT. 10) GO TO 20
      $SUM = $SUM+N*N
      GO TO 10
   20 $DONE = 1
      END
      INTEGER FUNCTION ITAKE($N)
      INTEGER $N
      ITAKE = $N
      $N = ITAKE+1
      END
