C     An array that a subroutine sorts, as long as it is told.
      PROGRAM SORTED
      INTEGER L(4)
      DATA L/30, 10, 40, 20/
      CALL SORT(L, 4)
      PRINT *, L(1), L(2), L(3), L(4)
      END
      SUBROUTINE SORT(L, N)
      INTEGER L(N)
      DO 20 I = 1, N-1
      DO 10 J = I+1, N
      IF (L(J) .LT. L(I)) THEN
         K = L(I)
         L(I) = L(J)
         L(J) = K
      END IF
   10 CONTINUE
   20 CONTINUE
      END
