C     An election in a ring: each process has a number of its own, and a
C     full/empty cell to the next one. It sends its number, hands on the
C     greater ones and keeps the smaller ones. The one that gets its own
C     number back leads, and sends it round again, as a negative one.
C     To break: hand smaller numbers on too.
      PROGRAM RING
      PARAMETER (N=6)
      INTEGER $CELL(N), $SENT, $LEADS(N)
      $SENT = 0
C     In the ring stand 2, 4, 6, 1, 3, 5.
      DO 10 I = 1, N
   10 CREATE NODE(MOD(2*I, N+1), $CELL(I), $CELL(MOD(I,N)+1), $SENT,
     1            $LEADS(I))
      DO 20 I = 1, N
      K = $LEADS(I)
   20 PRINT *, 'PROCESS ', MOD(2*I, N+1), ' KNOWS THE LEADER ', K
      PRINT *, 'SENT ', $SENT
      END
      SUBROUTINE NODE(ME, $IN, $OUT, $SENT, $LEADS)
      INTEGER $IN, $OUT, $SENT, $LEADS
      $OUT = ME
      $SENT = $SENT+1
   10 M = $IN
      IF (M .GT. ME) THEN
         $OUT = M
         $SENT = $SENT+1
      END IF
      IF (M .GT. 0 .AND. M .NE. ME) GO TO 10
C     Either this one leads, or the leader has told it.
      IF (M .EQ. ME) THEN
         $OUT = -ME
         M = $IN
      ELSE
         $OUT = M
      END IF
      $SENT = $SENT+1
      $LEADS = -M
      END
