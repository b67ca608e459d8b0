"hello,"
PRINTLN
"world"
SET s
GET s
10
OPEN
GET s
WRITE
'4'                 // PRINTLN is 52
WRITE
'C'                 // STOP is 67
WRITE
GET s
FORK
WAITUNTILDONE
"bye"
PRINTLN
STOP
