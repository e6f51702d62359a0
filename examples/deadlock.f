C     Two processes take two cells in opposite order: each gets one of
C     them, and waits for ever for the one that the other has.
      PROGRAM DEADLK
      INTEGER $A, $B, $DONE
      $A = 1
      $B = 2
      CREATE SWAP($A, $B, $DONE)
      CREATE SWAP($B, $A, $DONE)
      DO 10 I = 1, 2
   10 J = $DONE
      PRINT *, $A, $B
      END
C     A read takes a cell: it is empty until something is stored in it.
      SUBROUTINE SWAP($X, $Y, $DONE)
      INTEGER $X, $Y, $DONE
      I = $X
      J = $Y
      $X = J
      $Y = I
      $DONE = 1
      END
