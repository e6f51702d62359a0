C     Two processes and one full/empty variable.
      PROGRAM BOX
      INTEGER $BOX
      CREATE WRITER($BOX)
      PRINT *, 'READ ', $BOX
      PRINT *, 'READ ', $BOX
      END
      SUBROUTINE WRITER($OUT)
      INTEGER $OUT
      $OUT = 6
      $OUT = 7
      END
