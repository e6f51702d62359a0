C     A wavefront: an element of the table needs those above it and left
C     of it, so all of one diagonal can be done at once. Each row is the
C     work of one process, which waits by WAITF for the elements above.
C     Element I, J is the length of the longest sequence that is left of
C     both lists, up to I and J, once some numbers are crossed out.
C     To break: let each process begin with the last one of its rows.
      PROGRAM WAVE
      PARAMETER (N=8, NPROC=3)
      INTEGER LISTA(N), LISTB(N), $T(0:N,0:N)
      DATA LISTA/3, 1, 4, 1, 5, 9, 2, 6/
      DATA LISTB/1, 4, 2, 1, 3, 5, 6, 9/
      DO 10 I = 0, N
      IF (I .GT. 0) $T(I,0) = 0
   10 $T(0,I) = 0
      DO 20 I = 1, NPROC
   20 CREATE ROWS((I), LISTA, LISTB, $T)
      DO 30 I = 1, N
   30 PRINT *, WAITF($T(I,N))
      END
C     Process ME has the rows ME, ME+3 and so on.
      SUBROUTINE ROWS(ME, LISTA, LISTB, $T)
      PARAMETER (N=8, NPROC=3)
      INTEGER LISTA(N), LISTB(N), $T(0:N,0:N)
      DO 10 I = ME, N, NPROC
      DO 10 J = 1, N
      M = MAX(WAITF($T(I-1,J)), WAITF($T(I,J-1)))
      IF (LISTA(I) .EQ. LISTB(J)) M = WAITF($T(I-1,J-1))+1
   10 $T(I,J) = M
      END
