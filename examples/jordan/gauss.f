C     Gaussian elimination with self-scheduled rows, modulo a prime. At
C     a barrier before each step the last one to come makes the pivot's
C     row ready; then all take rows from $ROW until none is left.
C     The right side is made of the unknowns 1, 2, 3, 4.
C     To break: let the first one to come make the pivot's row ready.
      PROGRAM GAUSS
      PARAMETER (N=4, NPROC=3)
      INTEGER A(N,N+1), $IN, $OUT, $ROW, $DONE
      COMMON /SHARED/ $IN, $OUT, $ROW, $DONE
      DATA A/0,1,2,3, 2,1,0,5, 1,4,3,1, 3,2,1,0, 19,23,15,16/
      $IN = 0
      DO 10 I = 1, NPROC
   10 CREATE SOLVE(A)
      DO 20 I = 1, NPROC
   20 J = $DONE
      PRINT *, A(1,N+1), A(2,N+1), A(3,N+1), A(4,N+1)
      END
C     In step K all rows but row K lose their element in column K.
      SUBROUTINE SOLVE(A)
      PARAMETER (N=4, NPROC=3, MODUL=31)
      INTEGER A(N,N+1), $IN, $OUT, $ROW, $DONE
      COMMON /SHARED/ $IN, $OUT, $ROW, $DONE
      DO 30 K = 1, N
C     The barrier: $IN has how many came, $OUT how many are to leave.
      M = $IN+1
      IF (M .LT. NPROC) $IN = M
      IF (M .EQ. NPROC) THEN
         CALL PIVOT(A, K)
         $OUT = NPROC
      END IF
      M = $OUT-1
      IF (M .GT. 0) $OUT = M
      IF (M .EQ. 0) $IN = 0
C     The self-scheduled loop over the rows.
   10 I = $ROW
      $ROW = I+1
      IF (I .GT. N) GO TO 30
      IF (I .EQ. K) GO TO 10
      M = A(I,K)
      DO 20 J = K, N+1
   20 A(I,J) = MOD(A(I,J)+(MODUL-M)*A(K,J), MODUL)
      GO TO 10
   30 CONTINUE
      $DONE = 1
      END
C     A row without 0 in column K becomes row K, with 1 in column K.
      SUBROUTINE PIVOT(A, K)
      PARAMETER (N=4, MODUL=31)
      INTEGER A(N,N+1), $IN, $OUT, $ROW, $DONE
      COMMON /SHARED/ $IN, $OUT, $ROW, $DONE
      I = K-1
   10 I = I+1
      IF (A(I,K) .EQ. 0) GO TO 10
      M = 0
   20 M = M+1
      IF (MOD(M*A(I,K), MODUL) .NE. 1) GO TO 20
      DO 30 J = K, N+1
      L = A(I,J)
      A(I,J) = A(K,J)
   30 A(K,J) = MOD(L*M, MODUL)
      PURGE $ROW
      $ROW = 1
      END
