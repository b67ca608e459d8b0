#include "programs.h"

#include "arduinos.h"

/* Instruction numbers: their place in the guide's appendix C. */
enum {
    CHAR = 1, INT, STRING, FLOAT, SET, GET, INCREMENT, DECREMENT, PLUS, MINUS, TIMES, DIVIDEDBY, MODULUS, UNARYMINUS,
    EQUALS, NOTEQUALS, LESSTHAN, LESSTHANOREQUALS, GREATERTHAN, GREATERTHANOREQUALS, LOGICALAND, LOGICALOR, LOGICALXOR,
    LOGICALNOT, BITWISEAND, BITWISEOR, BITWISEXOR, BITWISENOT, TOCHAR, TOINT, TOFLOAT, ROUND, FLOOR, CEIL, MIN, MAX,
    ABS, CONSTRAIN, MAP, POW, SQ, SQRT, DELAY, DELAYUNTIL, MILLIS, PRINT = 51, PRINTLN, OPEN, CLOSE, WRITE, READINT,
    READCHAR, READFLOAT, READSTRING, IF, ELSE, ENDIF, WHILE, ENDWHILE, LOOP, ENDLOOP, STOP, FORK, WAITUNTILDONE
};

#define ABC10 'a', 'b', 'c', 'd', 'e', 'f', 'g', 'h', 'i', 'j'
#define ABC18 ABC10, 'k', 'l', 'm', 'n', 'o', 'p', 'q', 'r'
#define ABC24 ABC18, 's', 'a', 'b', 'c', 'd', 'e'
#define ABC29 ABC24, 'f', 'g', 'h', 'i', 'j'
#define OPEN_LOG STRING, 'l', 'o', 'g', 0, INT, 0, LOG_SIZE, OPEN
/* A CHAR 0 or 1 as a digit. */
#define DIGIT CHAR, '0', PLUS, PRINT
#define INTS(a, b) INT, 0, a, INT, 0, b
#define CHARS(a, b) CHAR, a, CHAR, b
#define NOT_A_NUMBER FLOAT, 127, 192, 0, 0

static const uint8_t values[] = {
    CHAR, 'a', PRINT, INT, 1, 44, PRINTLN, FLOAT, 66, 246, 230, 102, PRINTLN,
    STRING, 'H', 'e', 'l', 'l', 'o', 0, PRINTLN, STOP
};
static const uint8_t variables[] = {
    INT, 0, 3, SET, 'a', STRING, 'x', 'y', 'z', 0, SET, 's', FLOAT, 66, 246, 230, 102, SET, 'f', CHAR, 'c', SET, 'c',
    GET, 'a', PRINTLN, GET, 's', PRINTLN, GET, 'f', PRINTLN, GET, 'c', PRINTLN,
    STRING, 'n', 'o', 'w', 0, SET, 'a', GET, 'a', PRINTLN, STOP
};
static const uint8_t whole[] = {
    INT, 0, 7, INCREMENT, DECREMENT, INT, 0, 5, PLUS, INT, 0, 2, MINUS, INT, 0, 6, TIMES, INT, 0, 7, DIVIDEDBY,
    INT, 0, 3, MODULUS, UNARYMINUS, PRINTLN,
    CHAR, 128, ABS, TOINT, PRINTLN, INT, 0, 17, SQRT, SQ, PRINTLN, INT, 1, 65, TOCHAR, PRINTLN, STOP
};
static const uint8_t floats[] = {
    FLOAT, 64, 73, 15, 219, INCREMENT, INT, 0, 2, TIMES, PRINTLN,     /* (3.1416 + 1) * 2 */
    FLOAT, 191, 0, 0, 0, ROUND, PRINT, FLOAT, 191, 0, 0, 0, FLOOR, PRINT, FLOAT, 191, 0, 0, 0, CEIL, PRINTLN,
    INT, 0, 9, TOFLOAT, SQRT, PRINTLN, FLOAT, 63, 128, 0, 0, CHAR, 0, DIVIDEDBY, PRINTLN,
    FLOAT, 64, 72, 245, 195, TOINT, PRINTLN, FLOAT, 66, 131, 0, 0, TOCHAR, PRINTLN,
    FLOAT, 207, 127, 255, 255, PRINTLN, STOP                          /* -4294967040, the longest */
};
static const uint8_t comparisons[] = {
    INTS(3, 5), EQUALS, DIGIT, INTS(3, 5), NOTEQUALS, DIGIT, INTS(3, 5), LESSTHAN, DIGIT,
    INTS(3, 5), LESSTHANOREQUALS, DIGIT, INTS(3, 5), GREATERTHAN, DIGIT, INTS(3, 5), GREATERTHANOREQUALS, DIGIT,
    INTS(3, 0), LOGICALAND, DIGIT, INTS(3, 0), LOGICALOR, DIGIT, INTS(3, 0), LOGICALXOR, DIGIT,
    INT, 0, 0, LOGICALNOT, DIGIT, STOP
};
static const uint8_t bits[] = {
    INTS(12, 10), BITWISEAND, PRINTLN, INTS(12, 10), BITWISEOR, PRINTLN, INTS(12, 10), BITWISEXOR, PRINTLN,
    INT, 0, 12, BITWISENOT, PRINTLN, INTS(3, 5), MIN, PRINTLN, INTS(3, 5), MAX, PRINTLN, STOP
};
static const uint8_t constrained[] = {
    INTS(174, 50), INT, 0, 150, CONSTRAIN, PRINTLN,                   /* b is less */
    CHAR, 251, INT, 0, 0, CHAR, 9, CONSTRAIN, PRINTLN,                /* -5: a is greater; a's type, the widest */
    INTS(3, 9), INT, 0, 1, CONSTRAIN, PRINTLN,                        /* a above b: b */
    CHARS(2, 1), FLOAT, 64, 32, 0, 0, CONSTRAIN, PRINTLN,             /* 2, between 1 and 2.5, as FLOAT */
    NOT_A_NUMBER, CHARS(0, 5), CONSTRAIN, PRINTLN,                    /* neither is greater nor less */
    INT, 0, 7, NOT_A_NUMBER, CHAR, 5, CONSTRAIN, PRINTLN,             /* a is passed over, b is less */
    STOP
};
static const uint8_t mapped[] = {
    INT, 2, 188, INT, 0, 0, INT, 3, 255, INTS(0, 255), MAP, PRINTLN,  /* 700 * 255 / 1023 = 174.4.. */
    INT, 127, 255, INT, 128, 0, INT, 127, 255, INT, 128, 0, INT, 127, 255, MAP, PRINTLN, /* 65535^2 / 65535 - 32768 */
    CHARS(249, 0), CHARS(2, 10), CHAR, 11, MAP, TOINT, PRINTLN,       /* -7 / 2 = -3.5: -3 + 10 */
    CHARS(100, 0), CHARS(1, 0), CHAR, 2, MAP, TOINT, PRINTLN,         /* 200 - 256 */
    FLOAT, 63, 192, 0, 0, CHARS(0, 3), CHARS(0, 5), MAP, PRINTLN,     /* 1.5 * 5 / 3 */
    CHARS(5, 3), CHARS(3, 0), FLOAT, 63, 128, 0, 0, MAP, PRINTLN,     /* 2 * 1.0 / 0 */
    STOP
};
static const uint8_t powers[] = {
    FLOAT, 63, 192, 0, 0, CHAR, 2, POW, PRINTLN,                      /* 1.5 * 1.5 */
    CHAR, 2, INT, 0, 7, POW, PRINTLN,                                 /* an INT by y's type */
    CHARS(2, 7), POW, TOINT, PRINTLN, CHARS(254, 3), POW, TOINT, PRINTLN, /* 128 - 256; -2 * -2 * -2 */
    INT, 0, 2, CHAR, 15, POW, PRINTLN,                                /* 32768 - 65536 */
    INT, 0, 0, CHAR, 0, POW, PRINTLN, NOT_A_NUMBER, CHAR, 0, POW, PRINTLN, /* 1 for every x */
    STOP
};
static const uint8_t timing[] = {
    MILLIS, INT, 0, 50, PLUS, DELAYUNTIL, STRING, 'l', 'i', 't', 0, PRINTLN, STOP
};
static const uint8_t branches[] = {
    INT, 0, 0, IF, 7, STRING, 'T', 'r', 'u', 'e', 0, PRINTLN, ELSE, 8, STRING, 'F', 'a', 'l', 's', 'e', 0, PRINTLN,
    ENDIF,
    INT, 0, 1, IF, 7, STRING, 'T', 'r', 'u', 'e', 0, PRINTLN, ELSE, 8, STRING, 'F', 'a', 'l', 's', 'e', 0, PRINTLN,
    ENDIF, STOP
};
static const uint8_t down[] = {
    INT, 0, 3, SET, 'n', GET, 'n', WHILE, 2, 8, GET, 'n', PRINTLN, GET, 'n', DECREMENT, SET, 'n', ENDWHILE, STOP
};
static const uint8_t loop[] = {
    INT, 0, 0, SET, 'i', LOOP, GET, 'i', INCREMENT, SET, 'i', GET, 'i', INT, 0, 3, EQUALS, IF, 1, STOP, ENDIF,
    GET, 'i', PRINTLN, ENDLOOP
};
static const uint8_t files[] = {
    OPEN_LOG, STRING, 't', 'e', 'x', 't', 0, WRITE, CHAR, 'a', WRITE, INT, 98, 99, WRITE, FLOAT, 61, 204, 204, 205,
    WRITE, OPEN_LOG, READSTRING, PRINTLN, READCHAR, PRINTLN, READINT, PRINTLN, READFLOAT, PRINTLN, CLOSE, STOP
};
/* Writes STOP over its own bytes from the first on, until it meets the one that it wrote over the loop. */
static const uint8_t own_file[] = { STRING, 'p', 0, CHAR, 1, OPEN, LOOP, CHAR, STOP, WRITE, ENDLOOP };
static const uint8_t most_letters[] = { STRING, ABC29, 0, PRINTLN, STOP };

/* Faults by number, the reasons of each that touch different places. */
static const uint8_t not_built[] = { DELAY };
static const uint8_t no_byte_left[] = { CHAR, 7 };
static const uint8_t int_cut[] = { INT, 1 };
static const uint8_t float_cut[] = { FLOAT, 1, 2, 3 };
static const uint8_t string_cut[] = { STRING, 'a', 'b' };
static const uint8_t while_cut[] = { CHAR, 1, WHILE, 1 };
static const uint8_t set_cut[] = { CHAR, 1, SET };
static const uint8_t jump_past[] = { CHAR, 0, IF, 1 };
static const uint8_t jump_before[] = { CHAR, 1, WHILE, 1, 200, ENDWHILE };
static const uint8_t no_loop[] = { ENDLOOP };
static const uint8_t too_many_letters[] = { STRING, ABC29, 'k', 0, PRINTLN, STOP };
static const uint8_t stack_overflow[] = { LOOP, INT, 0, 1, ENDLOOP };
static const uint8_t empty_stack[] = { PLUS };
static const uint8_t one_operand[] = { INT, 0, 1, MINUS };
static const uint8_t two_of_three[] = { INTS(1, 2), CONSTRAIN };
static const uint8_t four_of_five[] = { INTS(1, 2), INTS(3, 4), MAP };
static const uint8_t one_of_two[] = { CHAR, 2, POW };
static const uint8_t wrong_type[] = { STRING, 'a', 0, INCREMENT };
static const uint8_t constrained_string[] = { STRING, 'a', 0, INTS(1, 2), CONSTRAIN };
static const uint8_t mapped_string[] = { STRING, 'a', 0, INTS(1, 2), INTS(2, 3), MAP };
static const uint8_t float_exponent[] = { CHAR, 2, FLOAT, 64, 0, 0, 0, POW };
static const uint8_t divisor_zero[] = { INT, 0, 1, INT, 0, 0, MODULUS };
static const uint8_t empty_range[] = { INTS(5, 3), INTS(3, 0), CHAR, 9, MAP };
static const uint8_t out_of_range[] = { FLOAT, 71, 0, 0, 0, TOINT };
static const uint8_t exponent_above[] = { CHARS(2, 16), POW };
static const uint8_t exponent_below[] = { CHAR, 2, INT, 255, 255, POW };
static const uint8_t no_variable[] = { GET, 'z' };
#define SET_30(name) STRING, ABC29, 0, SET, name
/* 8 * 30 and 16 bytes fill the memory; one byte more has no place. */
static const uint8_t no_memory[] = {
    SET_30('a'), SET_30('b'), SET_30('c'), SET_30('d'), SET_30('e'), SET_30('f'), SET_30('g'), SET_30('h'),
    STRING, ABC10, 'k', 'l', 'm', 'n', 'o', 0, SET, 'i', GET, 'i', PRINT, CHAR, 1, SET, 'j', STOP
};
#define SET_1(name) CHAR, 1, SET, name
#define SET_5(name) SET_1(name), SET_1(name + 1), SET_1(name + 2), SET_1(name + 3), SET_1(name + 4)
static const uint8_t no_entry[] = { SET_5(0), SET_5(5), SET_5(10), SET_5(15), SET_5(20), SET_1(24), SET_1(255), STOP };
static const uint8_t no_open_file[] = { READSTRING };
static const uint8_t write_past[] = { OPEN_LOG, STRING, ABC18, 's', 0, WRITE, CHAR, 1, WRITE };
static const uint8_t read_past[] = { OPEN_LOG, STRING, ABC18, 0, WRITE, READINT };
static const uint8_t no_zero_left[] = {
    OPEN_LOG, FLOAT, 1, 1, 1, 1, WRITE, FLOAT, 1, 1, 1, 1, WRITE, FLOAT, 1, 1, 1, 1, WRITE, FLOAT, 1, 1, 1, 1, WRITE,
    FLOAT, 1, 1, 1, 1, WRITE, OPEN_LOG, READSTRING
};
static const uint8_t bad_file_name[] = { STRING, 0, INT, 0, 1, OPEN };
static const uint8_t no_run[] = { STRING, 'l', 'o', 'g', 0, INT, 0, LOG_SIZE + 1, OPEN };

/* A FLOAT of the most letters and a string above it fill the stack; emptied, it takes 29 letters at a time. */
static const uint8_t chatters[] = {
    FLOAT, 207, 127, 255, 255, STRING, ABC24, 0,
    PRINTLN, PRINTLN, STRING, ABC29, 0, PRINTLN, STRING, ABC29, 0, PRINTLN, STRING, ABC29, 0, PRINTLN, STOP
};
static const uint8_t spells[] = { CHAR, 'a', PRINT, CHAR, 'b', PRINT, CHAR, 'c', PRINT, CHAR, 'd', PRINT, STOP };

static const uint8_t forks[] = { STRING, 'c', 'h', 'i', 'l', 'd', 0, FORK, WAITUNTILDONE, CHAR, 'p', PRINT, STOP };
static const uint8_t forked[] = { CHAR, 'c', PRINT, STOP };

#define PROGRAM(array, prints, fault) { #array, array, sizeof array, prints, fault }

const struct program programs[] = {
    PROGRAM(values, "a300\n123.45\nHello\n", 0),
    PROGRAM(variables, "3\nxyz\n123.45\nc\nnow\n", 0),
    PROGRAM(whole, "-2\n-128\n16\nA\n", 0),
    PROGRAM(floats, "8.28\n-1-10\n3.00\ninf\n3\nA\n-4294967040.00\n", 0),
    PROGRAM(comparisons, "0111000111", 0),
    PROGRAM(bits, "8\n14\n6\n-13\n3\n5\n", 0),
    PROGRAM(constrained, "150\n0\n1\n2.00\nnan\n5.00\n", 0),
    PROGRAM(mapped, "174\n32767\n7\n-56\n2.50\ninf\n", 0),
    PROGRAM(powers, "2.25\n128\n-128\n-8\n-32768\n1\n1.00\n", 0),
    PROGRAM(timing, "lit\n", 0),
    PROGRAM(branches, "False\nTrue\n", 0),
    PROGRAM(down, "3\n2\n1\n", 0),
    PROGRAM(loop, "1\n2\n", 0),
    PROGRAM(files, "text\na\n25187\n0.10\n", 0),
    PROGRAM(own_file, "", 0),
    PROGRAM(most_letters, "abcdefghijklmnopqrsabcdefghij\n", 0),
    PROGRAM(not_built, "", ARDUINOS_FAULT_NO_INSTRUCTION),
    PROGRAM(no_byte_left, "", ARDUINOS_FAULT_CODE_ENDED),
    PROGRAM(int_cut, "", ARDUINOS_FAULT_CODE_ENDED),
    PROGRAM(float_cut, "", ARDUINOS_FAULT_CODE_ENDED),
    PROGRAM(string_cut, "", ARDUINOS_FAULT_CODE_ENDED),
    PROGRAM(while_cut, "", ARDUINOS_FAULT_CODE_ENDED),
    PROGRAM(set_cut, "", ARDUINOS_FAULT_CODE_ENDED),
    PROGRAM(jump_past, "", ARDUINOS_FAULT_JUMP_OUTSIDE),
    PROGRAM(jump_before, "", ARDUINOS_FAULT_JUMP_OUTSIDE),
    PROGRAM(no_loop, "", ARDUINOS_FAULT_JUMP_OUTSIDE),
    PROGRAM(too_many_letters, "", ARDUINOS_FAULT_STACK_FULL),
    PROGRAM(stack_overflow, "", ARDUINOS_FAULT_STACK_FULL),
    PROGRAM(empty_stack, "", ARDUINOS_FAULT_TOO_FEW_BYTES),
    PROGRAM(one_operand, "", ARDUINOS_FAULT_TOO_FEW_BYTES),
    PROGRAM(two_of_three, "", ARDUINOS_FAULT_TOO_FEW_BYTES),
    PROGRAM(four_of_five, "", ARDUINOS_FAULT_TOO_FEW_BYTES),
    PROGRAM(one_of_two, "", ARDUINOS_FAULT_TOO_FEW_BYTES),
    PROGRAM(wrong_type, "", ARDUINOS_FAULT_WRONG_TYPE),
    PROGRAM(constrained_string, "", ARDUINOS_FAULT_WRONG_TYPE),
    PROGRAM(mapped_string, "", ARDUINOS_FAULT_WRONG_TYPE),
    PROGRAM(float_exponent, "", ARDUINOS_FAULT_WRONG_TYPE),
    PROGRAM(divisor_zero, "", ARDUINOS_FAULT_DIVISOR_ZERO),
    PROGRAM(empty_range, "", ARDUINOS_FAULT_DIVISOR_ZERO),
    PROGRAM(out_of_range, "", ARDUINOS_FAULT_OUT_OF_RANGE),
    PROGRAM(exponent_above, "", ARDUINOS_FAULT_OUT_OF_RANGE),
    PROGRAM(exponent_below, "", ARDUINOS_FAULT_OUT_OF_RANGE),
    PROGRAM(no_variable, "", ARDUINOS_FAULT_NO_VARIABLE),
    PROGRAM(no_memory, "abcdefghijklmno", ARDUINOS_FAULT_NO_VARIABLE_SPACE),
    PROGRAM(no_entry, "", ARDUINOS_FAULT_NO_VARIABLE_SPACE),
    PROGRAM(no_open_file, "", ARDUINOS_FAULT_NO_OPEN_FILE),
    PROGRAM(write_past, "", ARDUINOS_FAULT_FILE_ENDED),
    PROGRAM(read_past, "", ARDUINOS_FAULT_FILE_ENDED),
    PROGRAM(no_zero_left, "", ARDUINOS_FAULT_FILE_ENDED),
    PROGRAM(bad_file_name, "", ARDUINOS_FAULT_FILE_REFUSED),
    PROGRAM(no_run, "", ARDUINOS_FAULT_FILE_REFUSED),
};
const size_t program_count = sizeof programs / sizeof programs[0];

const struct program letters = PROGRAM(most_letters, "abcdefghijklmnopqrsabcdefghij\n", 0);
const struct program chatter = PROGRAM(chatters, "abcdefghijklmnopqrsabcde\n-4294967040.00\n"
                                                 "abcdefghijklmnopqrsabcdefghij\n"
                                                 "abcdefghijklmnopqrsabcdefghij\n"
                                                 "abcdefghijklmnopqrsabcdefghij\n", 0);
const struct program spelling = PROGRAM(spells, "abcd", 0);
const struct program parent = PROGRAM(forks, "cp", 0);
const struct program child = PROGRAM(forked, "c", 0);

static const uint8_t no_values[] = { 0 };
static const uint8_t two_chars[] = { CHAR, 5, CHAR, 3 };
static const uint8_t two_ints[] = { INT, 1, 5, INT, 0, 3 };
static const uint8_t two_floats[] = { FLOAT, 64, 73, 15, 219, FLOAT, 63, 0, 0, 0 };
static const uint8_t float_and_char[] = { FLOAT, 63, 192, 0, 0, CHAR, 15 };
static const uint8_t three_numbers[] = { CHAR, 9, INT, 0, 3, FLOAT, 64, 32, 0, 0 };
static const uint8_t five_wholes[] = { INT, 2, 188, CHAR, 0, INT, 3, 255, CHAR, 0, INT, 0, 255 };
/* All 32 bytes of the stack: six FLOATs on a CHAR. */
static const uint8_t full_stack[] = {
    CHAR, 5, FLOAT, 64, 73, 15, 219, FLOAT, 63, 192, 0, 0, FLOAT, 63, 0, 0, 0, FLOAT, 64, 32, 0, 0,
    FLOAT, 66, 246, 230, 102, FLOAT, 61, 204, 204, 205
};
static const uint8_t string_and_int[] = { STRING, 'l', 'o', 'g', 0, INT, 0, 9 };
static const uint8_t own_name[] = { INT, 0, 9, STRING, 'p', 0 };
static const uint8_t opened[] = { OPEN_LOG, CHAR, 66 };
static const uint8_t looped[] = { LOOP, CHAR, 0 };

#define PREFIX(array) { array, sizeof array }

const struct prefix prefixes[] = {
    { no_values, 0 },       PREFIX(two_chars),     PREFIX(two_ints),    PREFIX(two_floats),
    PREFIX(float_and_char), PREFIX(three_numbers), PREFIX(five_wholes), PREFIX(full_stack),
    PREFIX(string_and_int), PREFIX(own_name),      PREFIX(opened),      PREFIX(looped),
};
const size_t prefix_count = sizeof prefixes / sizeof prefixes[0];
