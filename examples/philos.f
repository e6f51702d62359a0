C     Three philosophers at a round table, with a fork between any two:
C     each takes its left fork, then its right one. They may starve.
      PROGRAM PHILOS
      PARAMETER (N=3)
      INTEGER $FORK(N), $MEALS
      DO 10 I = 1, N
   10 $FORK(I) = I
      DO 20 I = 1, N
   20 CREATE DINE($FORK(I), $FORK(MOD(I,N)+1), $MEALS)
      M = 0
      DO 30 I = 1, N
   30 M = M+$MEALS
      PRINT *, 'MEALS: ', M
      END
C     Who has both forks eats, and puts them back.
      SUBROUTINE DINE($LEFT, $RIGHT, $MEALS)
      INTEGER $LEFT, $RIGHT, $MEALS
      DO 10 K = 1, 2
      I = $LEFT
      J = $RIGHT
      $LEFT = I
   10 $RIGHT = J
      $MEALS = K-1
      END
