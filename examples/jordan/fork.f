C     Fork and join: the main program makes a process for each part of a
C     sum, does a part itself, and then waits until all have joined.
C     $JOIN counts those that haven't; the last one fills $ALL.
C     I stands in parentheses, so each process gets a value of its own.
C     To break: pass I itself, which the loop changes meanwhile.
      PROGRAM FORK
      PARAMETER (NPROC=4)
      INTEGER $JOIN, $ALL
      COMMON /SHARED/ $JOIN, $ALL, ISUM(NPROC)
      $JOIN = NPROC
      DO 10 I = 1, NPROC
   10 ISUM(I) = 0
      DO 20 I = 1, NPROC-1
   20 CREATE PART((I))
      CALL PART(NPROC)
      I = WAITF($ALL)
      DO 30 I = 1, NPROC
   30 PRINT *, 'PART ', I, ' HAS THE SUM ', ISUM(I)
      PRINT *, 'TOGETHER ', ISUM(1)+ISUM(2)+ISUM(3)+ISUM(4)
      END
C     Part ME is the sum of the squares of ME, ME+4 and so on.
      SUBROUTINE PART(ME)
      PARAMETER (NPROC=4)
      INTEGER $JOIN, $ALL
      COMMON /SHARED/ $JOIN, $ALL, ISUM(NPROC)
      M = 0
      DO 10 I = ME, 12, NPROC
   10 M = M+I*I
      ISUM(ME) = M
C     The last one to join lets the main program go on.
      N = $JOIN-1
      $JOIN = N
      IF (N .EQ. 0) $ALL = 1
      END
