C     A matrix product by rows: a process has the rows ME, ME+2 and so
C     on. Nobody else stores in them, so no row needs a lock. A and B
C     are shared and only read; ISUM is each process's own.
C     The check: C times a vector is A times B times the vector.
C     To break: put ISUM into COMMON, where all add to it.
      PROGRAM MATRIX
      PARAMETER (N=4, NPROC=2)
      INTEGER A(N,N), B(N,N), C(N,N), $DONE
      COMMON $DONE
      LOGICAL RIGHT
      DATA A/3,1,4,1, 5,9,2,6, 5,3,5,8, 9,7,9,3/
      DATA B/2,7,1,8, 2,8,1,8, 2,8,4,5, 9,0,4,5/
      DO 10 I = 1, NPROC
   10 CREATE ROWS((I), A, B, C)
      DO 20 I = 1, NPROC
   20 J = $DONE
C     The vector is 1, 2, 3, 4.
      RIGHT = .TRUE.
      DO 50 I = 1, N
      M = 0
      DO 40 J = 1, N
      L = 0
      DO 30 K = 1, N
   30 L = L+B(J,K)*K
   40 M = M+A(I,J)*L-C(I,J)*J
      RIGHT = RIGHT .AND. M .EQ. 0
   50 PRINT *, C(I,1), C(I,2), C(I,3), C(I,4)
      PRINT *, 'RIGHT: ', RIGHT
      END
C     Rows ME, ME+2 and so on of the product.
      SUBROUTINE ROWS(ME, A, B, C)
      PARAMETER (N=4, NPROC=2)
      INTEGER A(N,N), B(N,N), C(N,N), $DONE
      COMMON $DONE
      DO 20 I = ME, N, NPROC
      DO 20 J = 1, N
      ISUM = 0
      DO 10 K = 1, N
   10 ISUM = ISUM+A(I,K)*B(K,J)
   20 C(I,J) = ISUM
      $DONE = 1
      END
