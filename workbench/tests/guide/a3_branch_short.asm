        3
        SET a
        GET a
        5
        EQUALS
        IF
          "True"
          PRINTLN
        ELSE
          "False"
          PRINTLN
        ENDIF
        STOP
