  "log"
  CHAR 6            ; ignored: the file is there
  OPEN
  3
  SET n
  GET n
  WHILE
    READINT
    PRINTLN
    GET n
    DECREMENT
    SET n
  ENDWHILE
  STOP
