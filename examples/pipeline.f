C     A pipeline of processes: the primes up to 30, a stage for each.
      PROGRAM PIPELN
      INTEGER $OUT
      CREATE STAGE($OUT)
      DO 10 I = 2, 30
   10 $OUT = I
C     0 goes through all stages and ends them.
      $OUT = 0
      END
C     The first number that comes is a prime. Others that it doesn't
C     divide go on to the next stage, by a cell of this one's own.
      SUBROUTINE STAGE($IN)
      INTEGER $IN, $OUT
      NP = $IN
      IF (NP .EQ. 0) RETURN
      PRINT *, NP
      CREATE STAGE($OUT)
   10 N = $IN
      IF (N .EQ. 0 .OR. MOD(N, NP) .NE. 0) $OUT = N
      IF (N .NE. 0) GO TO 10
      END
