C     A producer and a consumer over one full/empty variable.
      PROGRAM PAIR
      INTEGER $BOX, $SUM
      CREATE GIVE($BOX)
      CREATE TAKE($BOX, $SUM)
      PRINT *, 'TOGETHER ', $SUM
      END
C     Each store waits until the box is empty, and fills it.
      SUBROUTINE GIVE($OUT)
      INTEGER $OUT
      DO 10 K = 1, 5
   10 $OUT = K*K
      END
C     Each read waits until the box is full, and empties it.
      SUBROUTINE TAKE($IN, $ALL)
      INTEGER $IN, $ALL
      N = 0
      DO 10 K = 1, 5
      M = $IN
      PRINT *, 'TOOK ', M
   10 N = N+M
      $ALL = N
      END
