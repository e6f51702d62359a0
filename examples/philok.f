C     The philosophers of philos.f again, but each takes the fork with
C     the lower number first: so they never starve.
      PROGRAM PHILOK
      PARAMETER (N=3)
      INTEGER $FORK(N), $MEALS
      DO 10 I = 1, N
   10 $FORK(I) = I
      DO 20 I = 1, N-1
   20 CREATE DINE($FORK(I), $FORK(I+1), $MEALS)
C     The last one has fork N on its left, and fork 1 on its right.
      CREATE DINE($FORK(1), $FORK(N), $MEALS)
      M = 0
      DO 30 I = 1, N
   30 M = M+$MEALS
      PRINT *, 'MEALS: ', M
      END
C     Who has both forks eats, and puts them back.
      SUBROUTINE DINE($FIRST, $THEN, $MEALS)
      INTEGER $FIRST, $THEN, $MEALS
      DO 10 K = 1, 2
      I = $FIRST
      J = $THEN
      $FIRST = I
   10 $THEN = J
      $MEALS = K-1
      END
