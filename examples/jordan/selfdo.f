C     A self-scheduled loop: the processes share the number of the next
C     iteration, and each takes it as soon as it is done with its last.
C     How many steps N, N/2 or 3*N+1, .. takes to 1 isn't known before,
C     so that no plan made before could share the work out well.
C     To break: don't store the next number once there is none.
      PROGRAM SELFDO
      PARAMETER (NPROC=4, LAST=30)
      INTEGER $NEXT, $BEST, $DONE
      COMMON /SHARED/ $NEXT, $BEST, $DONE, LENGTH(LAST)
      $NEXT = 1
      $BEST = 1
      LENGTH(1) = 0
      DO 10 I = 1, NPROC
   10 CREATE WORKER
      N = 0
      DO 20 I = 1, NPROC
   20 N = N+$DONE
      I = $BEST
      PRINT *, N, ' ITERATIONS, THE LONGEST IS ', I, ': ', LENGTH(I)
      END
C     Who has read $NEXT has it alone until the next number is stored.
      SUBROUTINE WORKER
      PARAMETER (LAST=30)
      INTEGER $NEXT, $BEST, $DONE
      COMMON /SHARED/ $NEXT, $BEST, $DONE, LENGTH(LAST)
      M = 0
   10 N = $NEXT
      $NEXT = N+1
      IF (N .GT. LAST) GO TO 40
      M = M+1
      K = N
      L = 0
   20 IF (K .EQ. 1) GO TO 30
      IF (MOD(K, 2) .EQ. 0) THEN
         K = K/2
      ELSE
         K = 3*K+1
      END IF
      L = L+1
      GO TO 20
C     $BEST is the first N of the longest sequence, so no order counts.
C     LENGTH(1) is 0 from the start: who finds 1 in $BEST reads it at once.
   30 IF (N .GT. 1) LENGTH(N) = L
      K = $BEST
      IF (L .GT. LENGTH(K) .OR. L .EQ. LENGTH(K) .AND. N .LT. K) K = N
      $BEST = K
      GO TO 10
   40 $DONE = M
      END
