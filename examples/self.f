C     A self-scheduled loop: each process takes the next iteration.
      PROGRAM SELF
      INTEGER $NEXT, $SUM, $DONE
      $NEXT = 1
      $SUM = 0
      DO 10 I = 1, 3
   10 CREATE WORKER($NEXT, $SUM, $DONE)
C     One value of $DONE for each process that has ended its work.
      DO 20 I = 1, 3
   20 J = $DONE
      PRINT *, 'SQUARES UP TO 10 SUM TO ', $SUM
      END
C     While one process has read $NEXT and not stored it, others wait.
      SUBROUTINE WORKER($NEXT, $SUM, $DONE)
      INTEGER $NEXT, $SUM, $DONE
   10 N = $NEXT
      $NEXT = N+1
      IF (N .GT. 10) GO TO 20
      $SUM = $SUM+N*N
      GO TO 10
   20 $DONE = 1
      END
