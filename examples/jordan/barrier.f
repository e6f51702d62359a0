C     The barrier of the Force, which may be passed again and again: all
C     come in by one gate and leave by another. $IN has how many are in,
C     $OUT how many are still to leave; a gate that is empty is shut.
C     Between barriers each process adds the number that stands 1, then
C     2 places before its own: the sum of all up to it comes of that.
C     To break: let the first one that leaves open the gate in.
      PROGRAM FORCE
      PARAMETER (NPROC=4)
      INTEGER $IN, $OUT, $DONE
      COMMON /SHARED/ $IN, $OUT, $DONE, M(NPROC)
      $IN = 0
      DO 10 I = 1, NPROC
      M(I) = I
   10 CONTINUE
      DO 20 I = 1, NPROC
   20 CREATE SCAN((I))
      DO 30 I = 1, NPROC
   30 J = $DONE
      PRINT *, M(1), M(2), M(3), M(4)
      END
C     All have read what they need before one stores its sum.
      SUBROUTINE SCAN(ME)
      PARAMETER (NPROC=4)
      INTEGER $IN, $OUT, $DONE
      COMMON /SHARED/ $IN, $OUT, $DONE, M(NPROC)
      K = 1
   10 L = M(ME)
      IF (ME .GT. K) L = L+M(ME-K)
      CALL BARRIR
      M(ME) = L
      CALL BARRIR
      K = 2*K
      IF (K .LT. NPROC) GO TO 10
      $DONE = 1
      END
C     The last one to come opens the gate out; the last one to leave
C     opens the gate in.
      SUBROUTINE BARRIR
      PARAMETER (NPROC=4)
      INTEGER $IN, $OUT, $DONE
      COMMON /SHARED/ $IN, $OUT, $DONE, M(NPROC)
      N = $IN+1
      IF (N .LT. NPROC) $IN = N
      IF (N .EQ. NPROC) $OUT = NPROC
      N = $OUT-1
      IF (N .GT. 0) $OUT = N
      IF (N .EQ. 0) $IN = 0
      END
