//! A routine for each fault and each wording, with the words that explain it. Each runs alone, as the program `blink`.

use super::opcode::*;

#[derive(Clone, Copy)]
pub struct Routine {
    pub code: &'static [u8],
    pub fault: u8,
    pub offset: usize,
    pub words: &'static str,
}

const fn routine(code: &'static [u8], fault: u8, offset: usize, words: &'static str) -> Routine {
    Routine { code, fault, offset, words }
}

/// 1 and 2: the instruction and its arguments.
pub const FETCH: &[Routine] = &[
    routine(b"world", 1, 0, "byte 119 ('w') is no instruction"),
    routine(&[CLOSE, 0], 1, 1, "byte 0 is no instruction"),
    routine(&[200], 1, 0, "byte 200 is no instruction"),
    routine(&[CHAR, 1, PINMODE], 1, 2, "PINMODE is not built"),
    routine(&[INT, 0, 9, DELAY], 1, 3, "DELAY is not built; use MILLIS and DELAYUNTIL"),
    routine(&[CHAR, 1, PRINTLN], 2, 3, "the code ends here, without STOP"),
    routine(&[CHAR, 0, IF, 1, STOP], 2, 5, "the code ends here; a jump went past the STOP at offset 4"),
    routine(&[CHAR], 2, 0, "CHAR wants 1 byte after it, none is left"),
    routine(&[CLOSE, INT, 7], 2, 1, "INT wants 2 bytes after it, 1 is left"),
    routine(&[FLOAT, 63, 128, 0], 2, 0, "FLOAT wants 4 bytes after it, 3 are left"),
    routine(&[CHAR, 1, WHILE, 2], 2, 2, "WHILE wants 2 bytes after it, 1 is left"),
    routine(&[STRING, b'a', b'b'], 2, 0, "STRING has no zero before the code's end"),
];

/// Any fault: jumps into the middle of an instruction.
pub const INSIDE: &[Routine] = &[
    // the body leaves an INT; ENDWHILE takes its type, 2, and goes back to the n of SET
    routine(
        &[INT, 0, 3, SET, b'n', GET, b'n', WHILE, 2, 7, GET, b'n', GET, b'n', INCREMENT, SET, b'n', ENDWHILE, STOP],
        1,
        16,
        "byte 110 ('n') is no instruction; offset 16 lies inside SET n at 15: a jump can go wrong by its length, or by \
         a value left on the stack at ENDWHILE",
    ),
    routine(
        &[CHAR, 0, IF, 2, STRING, b'x', PLUS, 0],
        5,
        6,
        "PLUS takes two numbers; the stack held only CHAR 0; offset 6 lies inside STRING at 4: a jump can go wrong by \
         its length, or by a value left on the stack at ENDWHILE",
    ),
];

/// 5 and 6: the values that are popped.
pub const OPERAND: &[Routine] = &[
    routine(&[PLUS], 5, 0, "PLUS takes two numbers; the stack was empty"),
    routine(&[INT, 0, 5, PLUS], 5, 3, "PLUS takes two numbers; the stack held only INT 5"),
    routine(
        &[INT, 0, 5, CHAR, b'a', CONSTRAIN],
        5,
        5,
        "CONSTRAIN takes three numbers; the stack held only INT 5 and CHAR 97 'a'",
    ),
    routine(
        &[CHAR, 1, CHAR, 2, CHAR, 3, CHAR, 4, MAP],
        5,
        8,
        "MAP takes five numbers; the stack held only CHAR 1, CHAR 2, CHAR 3 and CHAR 4",
    ),
    routine(&[MODULUS], 5, 0, "MODULUS takes two whole numbers (CHAR or INT); the stack was empty"),
    routine(&[SET, b'n'], 5, 0, "SET takes a value; the stack was empty"),
    routine(&[DELAYUNTIL], 5, 0, "DELAYUNTIL takes a whole number (CHAR or INT); the stack was empty"),
    routine(&[ENDWHILE], 5, 0, "ENDWHILE takes the byte that WHILE pushed; the stack was empty"),
    routine(&[ENDIF], 5, 0, "ENDIF takes a number, such as IF leaves; the stack was empty"),
    routine(
        &[CHAR, 6, OPEN],
        5,
        2,
        "OPEN takes a string, the name, and on top of it a number, the size; the stack held only CHAR 6",
    ),
    routine(&[STRING, b'a', 0, INCREMENT], 6, 3, "INCREMENT takes a number; on top of the stack lay the string \"a\""),
    routine(&[STRING, b'a', 0, INT, 255, 251, PLUS], 6, 6, "PLUS takes numbers; below the INT -5 lay the string \"a\""),
    routine(
        &[STRING, b'"', 0, CHAR, 1, CHAR, 2, CONSTRAIN],
        6,
        7,
        "CONSTRAIN takes numbers; third from the top lay the string \"\\\"\"",
    ),
    routine(
        &[STRING, 10, 0, CHAR, 1, CHAR, 2, CHAR, 3, MAP],
        6,
        9,
        "MAP takes numbers; fourth from the top lay the string \"\\n\"",
    ),
    routine(
        &[STRING, 0, CHAR, 1, CHAR, 2, CHAR, 3, CHAR, 4, MAP],
        6,
        10,
        "MAP takes numbers; fifth from the top lay the string \"\"",
    ),
    routine(
        &[INT, 0, 7, FLOAT, 64, 32, 0, 0, MODULUS],
        6,
        8,
        "MODULUS takes whole numbers (CHAR or INT); on top of the stack lay the FLOAT 2.5",
    ),
    routine(
        &[FLOAT, 64, 32, 0, 0, BITWISENOT],
        6,
        5,
        "BITWISENOT takes a whole number (CHAR or INT); on top of the stack lay the FLOAT 2.5",
    ),
    routine(&[INT, 0, 5, TOINT], 6, 3, "TOINT takes a CHAR or a FLOAT; on top of the stack lay the INT 5"),
    routine(&[CHAR, 7, TOCHAR], 6, 2, "TOCHAR takes an INT or a FLOAT; on top of the stack lay the CHAR 7"),
    routine(
        &[FLOAT, 127, 128, 0, 1, TOFLOAT],
        6,
        5,
        "TOFLOAT takes a CHAR or an INT; on top of the stack lay the FLOAT nan",
    ),
    routine(
        &[CHAR, 2, FLOAT, 64, 64, 0, 0, POW],
        6,
        7,
        "POW takes a number and on top of it a whole number (CHAR or INT), the exponent; on top of the stack lay the \
         FLOAT 3.0",
    ),
    routine(
        &[STRING, b'l', b'o', b'g', 0, OPEN],
        6,
        5,
        "OPEN takes a string, the name, and on top of it a number, the size; on top of the stack lay the string \
         \"log\"",
    ),
    routine(
        &[CHAR, b'a', CHAR, 6, OPEN],
        6,
        4,
        "OPEN takes a string, the name, and on top of it a number, the size; below the CHAR 6 lay the CHAR 97 'a'",
    ),
    routine(&[CHAR, 0, FORK], 6, 2, "FORK takes a string, the name of a program; on top of the stack lay the CHAR 0"),
    routine(
        &[STRING, b'x', 0, WAITUNTILDONE],
        6,
        3,
        "WAITUNTILDONE takes a number, the ID of a process; on top of the stack lay the string \"x\"",
    ),
    routine(&[STRING, b'x', 0, IF, 0], 6, 3, "IF takes a number; on top of the stack lay the string \"x\""),
    routine(
        &[STRING, b'x', 0, ELSE, 0],
        6,
        3,
        "ELSE takes the number that IF left; on top of the stack lay the string \"x\"",
    ),
    routine(
        &[STRING, b'x', 0, WHILE, 3, 0],
        6,
        3,
        "WHILE takes a number, its condition; on top of the stack lay the string \"x\"",
    ),
];

/// 5 and 6: what WHILE and ENDWHILE leave on a stack when their lengths are wrong or a body leaves a value there.
pub const SPOILT: &[Routine] = &[
    routine(
        &[CHAR, 1, WHILE, 2, 1, PRINTLN, ENDWHILE, STOP],
        6,
        5,
        "PRINTLN takes a value; on top of the stack lay the byte 7, as the WHILE at offset 2 pushes for its ENDWHILE",
    ),
    // of two that push a 7, the one that PRINTLN is in the body of
    routine(
        &[CHAR, 1, WHILE, 2, 1, PRINTLN, ENDWHILE, CHAR, 0, WHILE, 2, 1, PRINTLN, ENDWHILE, STOP],
        6,
        5,
        "PRINTLN takes a value; on top of the stack lay the byte 7, as the WHILE at offset 2 pushes for its ENDWHILE",
    ),
    // both WHILEs push 13; the inner one's is on top
    routine(
        &[CHAR, 1, WHILE, 2, 7, CHAR, 1, WHILE, 8, 1, PRINTLN, ENDWHILE, ENDWHILE, STOP],
        6,
        10,
        "PRINTLN takes a value; on top of the stack lay the byte 13, as the WHILE at offset 7 pushes for its \
         ENDWHILE",
    ),
    routine(
        &[CHAR, 1, WHILE, 9, 0, CLOSE, PRINTLN],
        6,
        6,
        "PRINTLN takes a value; on top of the stack lay the byte 13, as the WHILE at offset 2 pushes for its ENDWHILE",
    ),
    // WHILE's byte is 4, the type of a FLOAT
    routine(
        &[CHAR, 1, WHILE, 0, 0, MODULUS],
        6,
        5,
        "MODULUS takes whole numbers (CHAR or INT); on top of the stack lay the type FLOAT, with no whole FLOAT below \
         it; it can be the byte 4 that the WHILE at offset 2 pushes for its ENDWHILE",
    ),
    routine(
        &[CHAR, 1, WHILE, 0, 0, INCREMENT],
        5,
        5,
        "INCREMENT takes a number; on top of the stack lay the type FLOAT, with none of its 4 bytes below it; it can \
         be the byte 4 that the WHILE at offset 2 pushes for its ENDWHILE",
    ),
    routine(
        &[CHAR, 1, WHILE, 5, 0, CHAR, 1, WHILE, 0, 0, INCREMENT],
        5,
        10,
        "INCREMENT takes a number; on top of the stack lay the type FLOAT, with only 1 of its 4 bytes below it; it can \
         be the byte 4 that the WHILE at offset 7 pushes for its ENDWHILE",
    ),
    // ELSE jumps over an instruction; ENDWHILE takes the INT's type, 2, and goes back to it: the INT's low byte is top
    routine(
        &[INT, 0, 9, ELSE, 1, PRINTLN, ENDWHILE],
        6,
        5,
        "PRINTLN takes a value; on top of the stack lay the byte 9, which is no type; an ENDWHILE can have taken a \
         byte of a value",
    ),
    routine(
        &[INT, 0, 4, ELSE, 1, MODULUS, ENDWHILE],
        6,
        5,
        "MODULUS takes whole numbers (CHAR or INT); on top of the stack lay the type FLOAT, with no whole FLOAT below \
         it; an ENDWHILE can have taken a byte of a value",
    ),
    routine(
        &[INT, 0, 4, ELSE, 1, PRINTLN, ENDWHILE],
        5,
        5,
        "PRINTLN takes a value; on top of the stack lay the type FLOAT, with only 1 of its 4 bytes below it; an \
         ENDWHILE can have taken a byte of a value",
    ),
    routine(
        &[INT, 5, 3, ELSE, 1, PRINTLN, ENDWHILE],
        5,
        5,
        "PRINTLN takes a value; on top of the stack lay a string of length 5, with no byte below it; an ENDWHILE can \
         have taken a byte of a value",
    ),
    routine(
        &[CHAR, b'A', INT, 5, 3, ELSE, 1, PRINTLN, ENDWHILE],
        5,
        7,
        "PRINTLN takes a value; on top of the stack lay a string of length 5, with only 2 bytes below it; an ENDWHILE \
         can have taken a byte of a value",
    ),
    routine(
        &[INT, 0, 3, ELSE, 1, PRINTLN, ENDWHILE],
        6,
        5,
        "PRINTLN takes a value; on top of the stack lay a string of length 0, without its zero; an ENDWHILE can have \
         taken a byte of a value",
    ),
    routine(
        &[CHAR, b'A', INT, 2, 3, ELSE, 1, PRINTLN, ENDWHILE],
        6,
        7,
        "PRINTLN takes a value; on top of the stack lay a string that ends without a zero, \"A\\x01\"; an ENDWHILE can \
         have taken a byte of a value",
    ),
    // the second ENDWHILE takes the INT's type, the first one the INT's 2: only its high byte is left
    routine(
        &[INT, 4, 2, ELSE, 2, PRINTLN, ENDWHILE, ENDWHILE],
        5,
        5,
        "PRINTLN takes a value; on top of the stack lay the type FLOAT, with none of its 4 bytes below it; an ENDWHILE \
         can have taken a byte of a value",
    ),
    routine(
        &[INT, 3, 2, ELSE, 2, PRINTLN, ENDWHILE, ENDWHILE],
        5,
        5,
        "PRINTLN takes a value; on top of the stack lay the type STRING, with no length below it; an ENDWHILE can have \
         taken a byte of a value",
    ),
    // the first ENDWHILE takes the FLOAT's type, 4, and then a zero; two of its bytes are the string
    routine(
        &[
            FLOAT, 0, 0, 0, 0, IF, 3, CLOSE, CLOSE, CLOSE, ENDWHILE, INT, 2, 3, ELSE, 1, PRINTLN, ENDWHILE,
        ],
        6,
        16,
        "PRINTLN takes a value; on top of the stack lay a string with a zero inside, \"\\x00\\x00\"; an ENDWHILE can \
         have taken a byte of a value",
    ),
];

/// 7 and 8: numbers.
pub const NUMBER: &[Routine] = &[
    routine(&[INT, 0, 7, CHAR, 0, DIVIDEDBY], 7, 5, "the divisor is zero: INT 7 DIVIDEDBY CHAR 0"),
    routine(&[CHAR, 249, INT, 0, 0, MODULUS], 7, 5, "the divisor is zero: CHAR -7 MODULUS INT 0"),
    routine(
        &[INT, 0, 5, INT, 0, 3, CHAR, 3, INT, 0, 0, INT, 0, 9, MAP],
        7,
        14,
        "MAP divides by c - b, which is zero: a is INT 5, b is INT 3, c is CHAR 3, d is INT 0, e is INT 9",
    ),
    routine(
        &[FLOAT, 71, 28, 64, 0, TOINT],
        8,
        5,
        "TOINT gives an INT, -32768 to 32767; on top of the stack lay the FLOAT 40000.0",
    ),
    routine(
        &[FLOAT, 67, 72, 0, 0, TOCHAR],
        8,
        5,
        "TOCHAR gives a CHAR, -128 to 127; on top of the stack lay the FLOAT 200.0",
    ),
    routine(
        &[FLOAT, 70, 255, 255, 0, ROUND],
        8,
        5,
        "ROUND gives an INT, -32768 to 32767; on top of the stack lay the FLOAT 32767.5",
    ),
    routine(
        &[FLOAT, 199, 0, 0, 128, FLOOR],
        8,
        5,
        "FLOOR gives an INT, -32768 to 32767; on top of the stack lay the FLOAT -32768.5",
    ),
    routine(
        &[FLOAT, 255, 192, 0, 0, CEIL],
        8,
        5,
        "CEIL gives an INT, -32768 to 32767; on top of the stack lay the FLOAT nan, which is no number",
    ),
    routine(
        &[INT, 255, 252, SQRT],
        8,
        3,
        "SQRT of a CHAR or an INT wants 0 or more; on top of the stack lay the INT -4",
    ),
    routine(&[INT, 0, 2, CHAR, 16, POW], 8, 5, "POW takes an exponent of 0 to 15; on top of the stack lay the CHAR 16"),
    routine(&[CHAR, 1, WHILE, 200, 60], 8, 2, "WHILE's lengths 200 and 60 make 260; together they are at most 251"),
];

/// 9 to 12: variables and the open file.
pub const STATE: &[Routine] = &[
    routine(&[GET, b'n'], 9, 0, "GET finds no variable n: this process has none; SET it first"),
    routine(&[CHAR, 1, SET, b'm', GET, 7], 9, 4, "GET finds no variable 7: this process has the variable m"),
    routine(
        &[CHAR, 1, SET, b'a', CHAR, 1, SET, 8, CHAR, 1, SET, b'c', GET, b'A'],
        9,
        12,
        "GET finds no variable A: this process has the variables a, 8 and c",
    ),
    routine(&[READINT], 11, 0, "no file is open for READINT: OPEN one first"),
    routine(&[CHAR, 1, WRITE], 11, 2, "no file is open for WRITE: OPEN one first"),
    routine(
        &[STRING, b'l', 0, CHAR, 3, OPEN, READINT, READINT],
        12,
        7,
        "READINT wants 2 bytes; of the file l, 3 bytes long, 1 is left",
    ),
    routine(
        &[STRING, b'l', 0, CHAR, 3, OPEN, READFLOAT],
        12,
        6,
        "READFLOAT wants 4 bytes; of the file l, 3 bytes long, 3 are left",
    ),
    routine(
        &[STRING, b'l', 0, CHAR, 1, OPEN, CHAR, 5, WRITE, STRING, 0, WRITE],
        12,
        11,
        "WRITE wants 1 byte; of the file l, 1 byte long, none is left",
    ),
    // A program that is its own file has no zero after READSTRING's offset
    routine(
        &[STRING, b'b', b'l', b'i', b'n', b'k', 0, CHAR, 1, OPEN, READSTRING, READSTRING],
        12,
        11,
        "READSTRING finds no zero; of the file blink, 12 bytes long, 5 are left",
    ),
    routine(
        &[STRING, b'l', 0, CHAR, 1, OPEN, READSTRING, READSTRING],
        12,
        7,
        "READSTRING finds no zero; of the file l, 1 byte long, none is left",
    ),
];

/// 13: OPEN's new file. 3 and 4: jumps and the stack's end.
pub const OTHER: &[Routine] = &[
    routine(
        &[STRING, b'a', b'b', b'c', b'd', b'e', b'f', b'g', b'h', b'i', b'j', b'k', b'l', 0, CHAR, 6, OPEN],
        13,
        16,
        "OPEN finds no file \"abcdefghijkl\" and can make none of that name: a name has 1 to 11 bytes, not 12",
    ),
    routine(
        &[STRING, b'a', b' ', b'b', 0, CHAR, 6, OPEN],
        13,
        7,
        "OPEN finds no file \"a b\" and can make none of that name: byte 32 (' ') cannot be in a name, only 33 \
         to 126 can",
    ),
    routine(
        &[STRING, b'l', 0, CHAR, 200, OPEN],
        13,
        5,
        "OPEN finds no file \"l\" and can make none of the size CHAR -56: a file has 1 to 863 bytes; a CHAR ends at \
         127, above it take an INT",
    ),
    routine(
        &[STRING, b'l', 0, FLOAT, 63, 0, 0, 0, OPEN],
        13,
        8,
        "OPEN finds no file \"l\" and can make none of the size FLOAT 0.5: a file has 1 to 863 bytes",
    ),
    routine(
        &[STRING, b'l', 0, FLOAT, 127, 192, 0, 1, OPEN],
        13,
        8,
        "OPEN finds no file \"l\" and can make none of the size FLOAT nan: a file has 1 to 863 bytes",
    ),
    routine(
        &[STRING, b'l', 0, INT, 3, 95, OPEN],
        13,
        6,
        "OPEN finds no file \"l\" and can make none of 863 bytes: the longest free run has 856",
    ),
    routine(
        &[LOOP, MILLIS, ENDLOOP],
        4,
        1,
        "the stack has 32 bytes: 30 are taken, and MILLIS pushes 3 more; 10 values lie there, the topmost INT 0, \
         INT 0 and INT 0",
    ),
    routine(
        b"\x03123456789012345678901234567890\0",
        4,
        0,
        "the stack has 32 bytes: none is taken, and STRING pushes 33 more",
    ),
    routine(
        b"\x0312345678901234567890123456\0\x01\x01\x1F",
        4,
        30,
        "the stack has 32 bytes: 31 are taken, and TOFLOAT puts 5 in the place of 2; 2 values lie there, the topmost \
         STRING \"12345678901234567890123456\" and CHAR 1",
    ),
    routine(&[CHAR, 0, IF, 70], 3, 2, "IF jumps to offset 74, past the code's end at 4"),
    routine(&[CHAR, 1, ELSE, 1], 3, 2, "ELSE jumps to offset 5, past the code's end at 4"),
    routine(&[CHAR, 0, WHILE, 2, 8], 3, 2, "WHILE jumps to offset 14, past the code's end at 5"),
    // 300 bytes of condition and body are no fault where the condition is zero
    routine(&[CHAR, 0, WHILE, 200, 100], 3, 2, "WHILE jumps to offset 106, past the code's end at 5"),
    routine(
        &[CHAR, 1, WHILE, 12, 2, ENDWHILE],
        3,
        5,
        "ENDWHILE goes back by the byte on top of the stack, 18, from offset 6 to -12, before the code's beginning",
    ),
    routine(&[ENDLOOP], 3, 0, "ENDLOOP has no LOOP to go back to: none was executed"),
];
