C     Readers and writers: many may look at once, but a writer is alone.
C     $ROOM is full while nobody is in, $READ has how many readers are
C     in: the first one takes the room, and the last one gives it back.
C     Writers move 1 from shelf to shelf; both together have 20.
C     To break: let other readers in before the first one has the room.
      PROGRAM LIBRAR
      INTEGER $ROOM, $READ, $WRONG, $DONE
      COMMON /SHARED/ $ROOM, $READ, $WRONG, $DONE, LEFT, NRIGHT
      LEFT = 20
      NRIGHT = 0
      $ROOM = 1
      $READ = 0
      $WRONG = 0
      DO 10 I = 1, 2
      CREATE WRITER
   10 CREATE READER
      DO 20 I = 1, 4
   20 J = $DONE
      PRINT *, 'SHELVES ', LEFT, NRIGHT, ', WRONG LOOKS ', $WRONG
      END
      SUBROUTINE WRITER
      INTEGER $ROOM, $READ, $WRONG, $DONE
      COMMON /SHARED/ $ROOM, $READ, $WRONG, $DONE, LEFT, NRIGHT
      DO 10 K = 1, 5
      I = $ROOM
      LEFT = LEFT-1
      NRIGHT = NRIGHT+1
   10 $ROOM = 1
      $DONE = 1
      END
      SUBROUTINE READER
      INTEGER $ROOM, $READ, $WRONG, $DONE
      COMMON /SHARED/ $ROOM, $READ, $WRONG, $DONE, LEFT, NRIGHT
      DO 10 K = 1, 5
      N = $READ
      IF (N .EQ. 0) I = $ROOM
      $READ = N+1
      M = LEFT+NRIGHT
      N = $READ-1
      IF (N .EQ. 0) $ROOM = 1
      $READ = N
   10 IF (M .NE. 20) $WRONG = $WRONG+1
      $DONE = 1
      END
