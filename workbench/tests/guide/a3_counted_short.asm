        0
        SET i
again:  GET i
        5
        LESSTHAN
        WHILE again
          GET i
          INCREMENT
          SET i
          GET i
          PRINTLN
        ENDWHILE
        STOP
