; A.1: int a = 300; int b = a + 3;
INT 1 44
SET 'a'
GET 'a'
INT 0 3
PLUS
SET 'b'
