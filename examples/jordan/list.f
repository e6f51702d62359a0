C     A sorted list whose links are full/empty cells: whoever has read a
C     link has locked its node. Processes walk along it hand over hand:
C     each takes the next link before it gives the one before it back.
C     Two processes add 5, 25 and 15, 35; another one drops 20 and 40.
C     To break: give the link back before the next one is taken.
      PROGRAM LINKED
      INTEGER $LINK(0:9), $DONE
      COMMON /LIST/ $LINK, KEY(0:9), $DONE
C     Node 0 is before the list, and node 5 behind it.
      DO 10 I = 0, 4
      KEY(I) = 10*I
   10 $LINK(I) = I+1
      KEY(5) = 1000
      CREATE ADD(6, 5)
      CREATE ADD(8, 15)
      CREATE DROP
      DO 20 I = 1, 3
   20 J = $DONE
      K = $LINK(0)
   30 IF (K .EQ. 5) STOP
      PRINT *, KEY(K)
      K = $LINK(K)
      GO TO 30
      END
C     Puts two nodes into the list.
      SUBROUTINE ADD(NODE, M)
      INTEGER $LINK(0:9), $DONE
      COMMON /LIST/ $LINK, KEY(0:9), $DONE
      DO 10 I = NODE, NODE+1
      KEY(I) = M+20*(I-NODE)
      CALL FIND(KEY(I), J, K)
      $LINK(I) = K
   10 $LINK(J) = I
      $DONE = 1
      END
C     Takes two nodes out of the list.
      SUBROUTINE DROP
      INTEGER $LINK(0:9), $DONE
      COMMON /LIST/ $LINK, KEY(0:9), $DONE
      DO 10 M = 20, 40, 20
      CALL FIND(M, J, K)
   10 $LINK(J) = $LINK(K)
      $DONE = 1
      END
C     The last node J below M, whose link is taken, and the next one, K.
      SUBROUTINE FIND(M, J, K)
      INTEGER $LINK(0:9), $DONE
      COMMON /LIST/ $LINK, KEY(0:9), $DONE
      J = 0
      K = $LINK(0)
   10 IF (KEY(K) .GE. M) RETURN
      L = $LINK(K)
      $LINK(J) = K
      J = K
      K = L
      GO TO 10
      END
