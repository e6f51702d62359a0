C     Quotients drop their fraction, and powers bind tightest.
      PROGRAM QUOT
      I = 7
      J = -2
      PRINT *, 'I/J =', I/J
      PRINT *, '-I/2 AND (-I)/2 ARE', -I/2, (-I)/2
      PRINT *, '-2**2 IS', -2**2, 'AND 2**(-3) IS', 2**(-3)
C     K has no value yet: this is a fault of process 1.
      PRINT *, K
      END
