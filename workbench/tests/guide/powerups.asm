"count"
CHAR 2
OPEN
READINT
INCREMENT
SET count
"count"
CHAR 2
OPEN              ; again: the offset is 0
GET count
WRITE
GET count
PRINTLN
STOP
