C     Two processes add to one variable without a `$`, so that additions may
C     be lost. The main program looks until both have said that they are done.
      PROGRAM RACE
      COMMON /SHARED/ N, L(2)
      N = 0
      L(1) = 0
      L(2) = 0
      CREATE ADD(1)
      CREATE ADD(2)
   10 IF (L(1)+L(2) .LT. 2) GO TO 10
      PRINT *, N
      END
      SUBROUTINE ADD(K)
      COMMON /SHARED/ N, L(2)
      DO 10 I = 1, 3
   10 N = N+1
      L(K) = 1
      END
