  "down"
  FORK
  SET id
  GET id
  IF
    GET id
    WAITUNTILDONE
    "ok"
    PRINTLN
  ELSE
    "no"
    PRINTLN
  ENDIF
  STOP
