        CHAR 13
        SET pin             # p
        CHAR 1
        SET output          # o
        GET pin
        CHAR 1
        PINMODE
        LOOP
          GET pin
          GET output
          DIGITALWRITE
          GET output
          LOGICALNOT
          SET output
          MILLIS
          500
          PLUS
          DELAYUNTIL
        ENDLOOP
