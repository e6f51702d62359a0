C     A dataflow LU: each row of the matrix is the work of one process.
C     Each element of U is a full/empty cell that is stored once; WAITF
C     waits for it and leaves it full: the data say which row is next.
C     Element I, J is the greatest common divisor of I and J, for which
C     all quotients are exact and the pivots Euler's 1, 1, 2, 2, 4, 2.
C     To break: take an element of U by a plain read, which empties it.
      PROGRAM LU
      PARAMETER (N=6)
      INTEGER $U(N,N)
      COMMON /UPPER/ $U
C     The last row begins first, and has to wait for all others.
      DO 10 I = N, 1, -1
   10 CREATE ROW((I))
      IPROD = 1
      DO 20 I = 1, N
      M = WAITF($U(I,I))
      PRINT *, 'PIVOT ', M
   20 IPROD = IPROD*M
      PRINT *, 'DETERMINANT ', IPROD
      END
C     Row I of L, which is kept here, and of U.
      SUBROUTINE ROW(I)
      PARAMETER (N=6)
      INTEGER $U(N,N), L(N)
      COMMON /UPPER/ $U
      DO 30 J = 1, N
C     M becomes the greatest common divisor of I and J.
      M = I
      K = J
   10 M2 = MOD(M, K)
      M = K
      K = M2
      IF (K .NE. 0) GO TO 10
      DO 20 K = 1, MIN(I,J)-1
   20 M = M-L(K)*WAITF($U(K,J))
      IF (J .LT. I) L(J) = M/WAITF($U(J,J))
   30 IF (J .GE. I) $U(I,J) = M
      END
