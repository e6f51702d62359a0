C     A bounded buffer: two producers, two consumers, a ring of 4 cells.
      PROGRAM BUFFER
      INTEGER $CELL(4), $PUT, $GET, $SUM
      COMMON /RING/ $CELL, $PUT, $GET
      $PUT = 1
      $GET = 1
      CREATE GIVE(1)
      CREATE GIVE(11)
      CREATE TAKE($SUM)
      CREATE TAKE($SUM)
      M = $SUM
      M = M+$SUM
      PRINT *, 'TOGETHER ', M
      END
C     Who has read $PUT is the only producer until it is stored again.
      SUBROUTINE GIVE(N)
      INTEGER $CELL(4), $PUT, $GET
      COMMON /RING/ $CELL, $PUT, $GET
      DO 10 I = N, N+9
      K = $PUT
      $CELL(K) = I
   10 $PUT = MOD(K,4)+1
      END
C     So it is with $GET and the consumers.
      SUBROUTINE TAKE($SUM)
      INTEGER $CELL(4), $PUT, $GET, $SUM
      COMMON /RING/ $CELL, $PUT, $GET
      M = 0
      DO 10 I = 1, 10
      K = $GET
      M = M+$CELL(K)
   10 $GET = MOD(K,4)+1
      $SUM = M
      END
