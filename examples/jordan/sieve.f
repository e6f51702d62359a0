C     A sieve as a pipeline: the numbers 2, 3, 4, .. go through a row of
C     stages, each a process, with a full/empty cell before each one.
C     The first number that comes to a stage is its prime; of the others
C     those go on that it doesn't divide. 0 ends the stages one by one.
C     To break: end a stage before it has handed the 0 on.
      PROGRAM SIEVE
      PARAMETER (NSTAGE=4)
      INTEGER $CELL(0:NSTAGE), $PRIME(NSTAGE), $TAKEN(NSTAGE)
      CREATE FEED($CELL(0), 50)
C     An element is passed as it is: its subscript is worked out here.
      DO 10 I = 1, NSTAGE
   10 CREATE STAGE($CELL(I-1), $CELL(I), $PRIME(I), $TAKEN(I))
C     What leaves the last stage has no factor up to 7.
   20 N = $CELL(NSTAGE)
      IF (N .NE. 0) PRINT *, N
      IF (N .NE. 0) GO TO 20
      DO 30 I = 1, NSTAGE
      K = $PRIME(I)
   30 PRINT *, K, ' TOOK OUT ', $TAKEN(I)
      END
      SUBROUTINE FEED($OUT, N)
      INTEGER $OUT
      DO 10 I = 2, N
   10 $OUT = I
      $OUT = 0
      END
      SUBROUTINE STAGE($IN, $OUT, $PRIME, $TAKEN)
      INTEGER $IN, $OUT, $PRIME, $TAKEN
      NP = $IN
      $PRIME = NP
      M = 0
   10 N = $IN
      IF (N .EQ. 0) GO TO 20
      IF (MOD(N, NP) .NE. 0) $OUT = N
      IF (MOD(N, NP) .EQ. 0) M = M+1
      GO TO 10
   20 $OUT = 0
      $TAKEN = M
      END
