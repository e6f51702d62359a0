C     Fork and join: a subroutine goes on beside its caller.
      PROGRAM FORK
      INTEGER $EVEN
      CALL EVENS(10, $EVEN)
C     Behind its RESUME the caller goes on here, and both add.
      N = 0
      DO 10 I = 1, 9, 2
   10 N = N+I
      M = $EVEN
      PRINT *, N, M, N+M
      END
C     What is called so gives its sum back by a full variable.
      SUBROUTINE EVENS(LAST, $SUM)
      INTEGER $SUM
      RESUME
      M = 0
      DO 10 I = 2, LAST, 2
   10 M = M+I
      $SUM = M
      END
