  3
  SET n
  GET n
  WHILE
    GET n
    PRINTLN
    GET n
    DECREMENT
    SET n
  ENDWHILE
  STOP
