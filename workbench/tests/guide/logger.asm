  "log"
  CHAR 6            ; the size, if it is new
  OPEN
  3
  SET n
  GET n
  WHILE
    MILLIS
    WRITE
    GET n
    DECREMENT
    SET n
  ENDWHILE
  STOP
