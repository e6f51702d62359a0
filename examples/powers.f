C     Sums, powers and logical constants: a run without a fault.
      PROGRAM POWERS
      N = 12
      ISUM = N*(N+1)/2
      ISQ = N*(N+1)*(2*N+1)/6
      PRINT *, 'THE NUMBERS UP TO ', N, ' HAVE THE SUM ', ISUM
      PRINT *, 'THEIR SQUARES HAVE ', ISQ
      PRINT *, 2**10, 2**62, (-2)**3, .TRUE., .FALSE.
      END
