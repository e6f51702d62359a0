C     A recurrence by a doacross: iteration I needs X(I-1) of the one
C     before it; the rest of each goes on beside the others. Each X(I)
C     is a full/empty cell; WAITF waits for that one alone, and leaves
C     it full. So no barrier is needed.
C     To break: take X(I-1) by VALUE, which doesn't wait.
      PROGRAM ACROSS
      PARAMETER (N=20, NPROC=3, MODUL=101)
      INTEGER $X(0:N)
      COMMON /SHARED/ $X
      $X(0) = 1
      DO 10 I = 1, NPROC
   10 CREATE ITERS((I))
C     The same by one process, to compare.
      LX = 1
      DO 20 I = 1, N
   20 LX = MOD((I*I+1)*LX+I, MODUL)
      I = WAITF($X(N))
      PRINT *, 'X IS ', I, ', BY ONE PROCESS ', LX
      END
C     Process ME has the iterations ME, ME+3, ME+6 and so on.
      SUBROUTINE ITERS(ME)
      PARAMETER (N=20, NPROC=3, MODUL=101)
      INTEGER $X(0:N)
      COMMON /SHARED/ $X
      DO 10 I = ME, N, NPROC
C     This part needs nothing of the iteration before.
      M = I*I+1
      LAST = WAITF($X(I-1))
      $X(I) = MOD(M*LAST+I, MODUL)
   10 CONTINUE
      END
