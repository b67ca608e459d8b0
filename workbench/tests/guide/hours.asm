; counts ten-second steps, 360 an hour, and prints the hours
        MILLIS
        SET t               ; when the running ten seconds began
        0
        SET n               ; ten-seconds counted
        0
        SET hours
        LOOP
          MILLIS
          GET t
          MINUS
          10000
          LESSTHAN
          WHILE
          ENDWHILE
          GET t
          10000
          PLUS
          SET t             ; from the old t, so that nothing is lost
          GET n
          INCREMENT
          SET n
          GET n
          360
          EQUALS
          IF
            0
            SET n
            GET hours
            INCREMENT
            SET hours
            GET hours
            PRINTLN
          ENDIF
        ENDLOOP
