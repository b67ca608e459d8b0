/*
 * The ArduinOS kernel of the hoist and jib boxes, for C99 and C++17.
 *
 * Link with libarduinos.a of the folder that scripts/library makes for a machine:   cc -I. main.c libarduinos.a
 * examples/box.c is a small firmware. Document 01 is the scope paper; words in double quotes are its own.
 * Every function is proved to do what documents 01 and 02 say for every length and every content of the lent buffers, to stay
 * inside them and to return; what the caller owes is this:
 *
 * - A buffer is lent as a pointer and its length in bytes. They belong together: that many bytes are there.
 * - No pointer is null, not even with length 0: lend the address of any byte of your own.
 * - Buffers lent to one call do not overlap. So a name is not lent from inside the disc.
 * - Calls on the same buffers do not run at once. While a call runs, neither an interrupt handler nor another thread
 *   calls with a buffer that was lent to it, or touches that buffer.
 *
 * What the caller gets:
 *
 * - A number. 0 or more: done. Below 0: refused, and then no byte of any buffer has changed.
 * - Nothing is kept between calls, neither pointer nor number: the whole state is in disc and work area. There is no
 *   heap, and each pair of buffers is a box of its own.
 * - A `const` buffer is only read. Output bytes beyond the number returned stay as they were.
 *
 * What is asked of the machine:
 *
 * - size_t of 32 or 64 bits. A length means the same on either: one above 32 bits is a wrong length like any other, and
 *   where size_t has 32 nobody can lend it.
 * - Float arithmetic of binary32, with subnormals, to the nearest and even, no product fused with a sum, and binary64 to
 *   compare. So leave the rounding mode and the flush to zero (FPSCR, MXCSR) as they are at reset while a call runs.
 * - Stack, by the guide's part 3; memcpy, memmove and memset; and the compiler's own library (libgcc) for what the
 *   processor lacks, as soft floats and quotients of 64 bits. A buffer may begin at any address. Interrupts and static
 *   data are not touched.
 *
 * Disc and work area:
 *
 * - The disc is an image of the EEPROM in memory; the functions know no EEPROM. Copy it in at power-up, and write what
 *   has changed back after format, store, erase, turn and round, which alone can change the disc.
 * - The work area does not outlive a reset: boot it at power-up. All zeros are no booted area, the next ID being 1.
 * - Only these functions write into the two. A work area belongs to the disc that its processes were started from: boot
 *   before another disc is used with it.
 */
#ifndef ARDUINOS_H
#define ARDUINOS_H

#include <stddef.h>
#include <stdint.h>

#ifdef __cplusplus
extern "C" {
#endif

/*
 * The version: 1 is document 01, and each request of document 02 that lands is one more. CHANGELOG.md says what firmware
 * must change. Header and archive are of one version: take both from the folder of scripts/library.
 */
#define ARDUINOS_VERSION 8

/*
 * Sizes, in bytes where nothing else is said.
 */

/* "Disc, 1,024 bytes.", the hoist box's; or, by document 02, Q-2, the 4,096 bytes of the jib box. Every function takes
 * either: the length that is lent tells which it is. A disc keeps its length for good. */
#define ARDUINOS_DISC_SIZE 1024
#define ARDUINOS_LONG_DISC_SIZE 4096
/* "Work area, 1,056 bytes." */
#define ARDUINOS_AREA_SIZE 1056
/* "Turn, one instruction of one slot, with a 32-bit clock and at least 32 output bytes" */
#define ARDUINOS_TURN_OUTPUT 32
/* By document 02, Q-9, a round "needs 2,560 output bytes": 32 for each of its turns, 80 at most. */
#define ARDUINOS_ROUND_OUTPUT 2560
/* "Ten directory entries"; "8 ten files already" */
#define ARDUINOS_MAX_FILES 10
/* "A name is 1 to 11 bytes of 33 to 126, zero-filled." Lend its bytes alone, without a zero behind them. */
#define ARDUINOS_MAX_NAME 11
/* "Data lie at 161 to 1023, 863 bytes.", of a long disc at 161 to 4095; the longest file, and all files together.
 * Retrieve needs no more output. */
#define ARDUINOS_MAX_DATA 863
#define ARDUINOS_LONG_MAX_DATA 3935
/* "Files: a line per file, name, space, length, newline": ten lines of at most 11 + 1 + 4 + 1. */
#define ARDUINOS_FILES_OUTPUT 170
/* "List: ID, space, 'r' or 'p', space, name, newline per live process": ten lines of at most 5 + 1 + 1 + 1 + 11 + 1. */
#define ARDUINOS_LIST_OUTPUT 200
/* "ten process records": so many processes live at most; slots are numbered 0 to 9. */
#define ARDUINOS_MAX_PROCESSES 10
/* "22 a share outside 1 to 8" (document 02, Q-9): so many turns has a process in a round at most; it begins with 1. */
#define ARDUINOS_MAX_SHARE 8
/* "A good area has at most 25 variables", those of all processes together. */
#define ARDUINOS_MAX_VARIABLES 25
/* "variable memory, 256", for the values of all processes together */
#define ARDUINOS_VARIABLE_MEMORY 256
/* "13 next ID is 32768": the last ID that run gives out; the first is 1. */
#define ARDUINOS_MAX_ID 32767

/*
 * Process records in the work area, to be read by the firmware and never written.
 *
 * The fault number of an ended process is nowhere else: "Its record keeps name, ID and fault (0 unless a fault) and
 * is otherwise zero." It keeps them until run, or a program's FORK, takes the slot again. Both take the lowest ended
 * slot, a FORK perhaps later in the same round: firmware that must see every end takes turns and no rounds.
 * A slot that was not used since boot is ended and has ID 0.
 */

/* "416: ten process records of 64 bytes": where the record of slot 0 to 9 begins. */
#define ARDUINOS_RECORD(slot) (416 + 64 * (slot))
/* "name 12, ID 2, state 1 [..], fault 1, [..] spare 1": offsets in a record. Document 02, Q-9: "The spare byte holds 1
 * to 8, with zero as one". Run and FORK write 0. A live record with more than 8 there makes the work area not good. */
#define ARDUINOS_RECORD_NAME 0   /* 12 bytes: the name and zeros */
#define ARDUINOS_RECORD_ID 12    /* 2 bytes, low byte first */
#define ARDUINOS_RECORD_STATE 14 /* 1 byte, one of the three below */
#define ARDUINOS_RECORD_FAULT 15 /* 1 byte, an enum arduinos_fault or 0; has a meaning once the process has ended */
#define ARDUINOS_RECORD_SHARE 31 /* 1 byte, turns a round, 0 counting as 1; has a meaning while the process lives */
/* "state 1 ('r' running, 'p' paused, 0 ended)". Live means running or paused. */
#define ARDUINOS_STATE_RUNNING 'r'
#define ARDUINOS_STATE_PAUSED 'p'
#define ARDUINOS_STATE_ENDED 0

/*
 * Refusals: what a function returns below 0.
 *
 *      meaning                          usual cause                              what to do
 *  -1  disc_len is neither 1024 nor     sizeof of a pointer; disc and area       correct the call
 *      4096, or area_len not 1056       exchanged
 *  -2  disc not good: names, places     a new EEPROM (all hex FF); power lost    read the EEPROM again; then format,
 *      or count of files                while it was written                     which loses all files
 *  -3  work area not good, or not of    boot left out; another disc put under    boot, which ends all processes
 *      this disc                        it; a stray write
 *  -4  output shorter than needed       a buffer not of the size above           lend ARDUINOS_.._OUTPUT bytes, and
 *                                                                                ARDUINOS_.._MAX_DATA to retrieve
 *  -5  bad name (store alone:           its zero counted (sizeof of a literal);  correct the name
 *      elsewhere it is -10)             a space; no byte, or more than 11
 *  -6  data length 0 or above 863,      an empty or an over-long program         correct the length
 *      on a long disc above 3935
 *  -7  name exists                      a new version of a file                  kill what runs it, erase it first
 *  -8  ten files already                logs that programs made (OPEN)           erase one
 *  -9  no free run long enough          the disc is full, or its free space      see free_space; erase neighbours, or
 *                                       is in pieces                             retrieve all, format, store again
 * -10  no such file                     a misspelt, an erased or a bad name      see files
 * -11  file in use                      a live process runs it or has it open    kill that process or wait for its end
 * -12  no ended slot                    ten processes live                       wait for an end, or kill one
 * -13  IDs used up                      32,767 starts since boot                 boot at a quiet moment: it ends all
 * -14  no live process of that ID       it has ended; no start gave that ID      take it as ended
 * -15  already in that state            suspend or resume given twice            take it as done
 * -16  slot above 9, or its process     turn of a slot that is paused or ended   pass it over
 *      is not running
 * -22  share outside 1 to 8             0 to take a share away; nine turns       lend 1 to 8: 1 takes it away
 *
 * No function returns -17 to -21.
 */
enum arduinos_refusal {
    ARDUINOS_WRONG_LENGTH = -1,
    ARDUINOS_BAD_DISC = -2,
    ARDUINOS_BAD_AREA = -3,
    ARDUINOS_SHORT_OUTPUT = -4,
    ARDUINOS_BAD_NAME = -5,
    ARDUINOS_BAD_SIZE = -6,
    ARDUINOS_NAME_EXISTS = -7,
    ARDUINOS_DIRECTORY_FULL = -8,
    ARDUINOS_NO_SPACE = -9,
    ARDUINOS_NO_SUCH_FILE = -10,
    ARDUINOS_FILE_IN_USE = -11,
    ARDUINOS_NO_SLOT = -12,
    ARDUINOS_NO_ID = -13,
    ARDUINOS_NO_SUCH_PROCESS = -14,
    ARDUINOS_ALREADY_IN_STATE = -15,
    ARDUINOS_NOT_RUNNING = -16,
    ARDUINOS_BAD_SHARE = -22
};

/*
 * Faults: why a process has ended, in its record. 0: by STOP or kill.
 *
 * The turn in which it happens is done and returns 0. The faulting instruction changes nothing but that its process is
 * ended and its variables are freed. Firmware reports it, and may run the program again.
 *
 *      meaning                          usual cause                              what to do in the program
 *   1  no such instruction              DELAY and pins are not built; a jump     leave them out; count jump lengths
 *                                       into an argument; a file that is no
 *                                       program was started
 *   2  code ended                       no STOP at the end; an argument or a     end with STOP; store the whole of it
 *                                       STRING's zero is missing
 *   3  jump outside the program, or     a wrong length after IF, ELSE, WHILE; a  count from past the argument bytes;
 *      ENDLOOP with no LOOP             LOOP left out or jumped over             LOOP before ENDLOOP
 *   4  stack above 32 bytes             values left there in a loop; a string    ENDIF takes a value off; print long
 *                                       above 29 letters                         texts in parts
 *   5  too few bytes on the stack       an operand is missing                    push it first
 *   6  a type not taken here, or a      STRING for a number; FLOAT in MODULUS,   convert first, or leave TOINT out; a
 *      malformed string                 DELAYUNTIL, a bitwise instruction or as  body of WHILE leaves the stack as it
 *                                       POW's y; TOINT of an INT; ENDWHILE took  was
 *                                       a byte of a value
 *   7  whole divisor zero               an unset measure; b = c in MAP           test it, or divide as FLOAT
 *   8  out of range: a conversion, a    a FLOAT above 32,767 made INT; NaN; a    CONSTRAIN before converting or POW; a
 *      negative whole root, POW's y,    y below 0 or above 15; a WHILE over      shorter loop
 *      WHILE                            more than 251 bytes
 *   9  no such variable                 GET ahead of the first SET; a            SET it first: variables are each
 *                                       neighbour's variable                     process's own
 *  10  no variable entry, or no free    25 variables or 256 bytes are in use,    fewer and shorter variables, or fewer
 *      memory in a row for the value    those of all processes counted; free     processes at once
 *                                       memory is in pieces
 *  11  no open file                     WRITE or READ ahead of OPEN              OPEN first
 *  12  past the file's end              a log is full; READSTRING met no zero    a longer file; OPEN again for offset 0
 *  13  OPEN's new file refused          a misspelt or bad name, a size outside   correct name or size; erase files;
 *                                       1 to 863, on a long disc to 3935; ten    store the file beforehand
 *                                       files, no free run
 */
enum arduinos_fault {
    ARDUINOS_FAULT_NO_INSTRUCTION = 1,
    ARDUINOS_FAULT_CODE_ENDED = 2,
    ARDUINOS_FAULT_JUMP_OUTSIDE = 3,
    ARDUINOS_FAULT_STACK_FULL = 4,
    ARDUINOS_FAULT_TOO_FEW_BYTES = 5,
    ARDUINOS_FAULT_WRONG_TYPE = 6,
    ARDUINOS_FAULT_DIVISOR_ZERO = 7,
    ARDUINOS_FAULT_OUT_OF_RANGE = 8,
    ARDUINOS_FAULT_NO_VARIABLE = 9,
    ARDUINOS_FAULT_NO_VARIABLE_SPACE = 10,
    ARDUINOS_FAULT_NO_OPEN_FILE = 11,
    ARDUINOS_FAULT_FILE_ENDED = 12,
    ARDUINOS_FAULT_FILE_REFUSED = 13
};

/*
 * The operations. "Refused" names the refusals in the order in which they are tried. "Returns 0" is said of success.
 */

/* Makes an empty disc and a booted work area of any bytes. Returns 0.
   Refused: WRONG_LENGTH. */
int32_t arduinos_format(uint8_t *disc, size_t disc_len, uint8_t *area, size_t area_len);

/* Makes a work area without processes and variables of any bytes; the next ID is 1. Returns 0.
   Refused: WRONG_LENGTH. */
int32_t arduinos_boot(uint8_t *area, size_t area_len);

/* Stores data as a new file, at the start of the shortest free run that is long enough, the lowest of equals. Returns 0.
   Refused: WRONG_LENGTH, BAD_DISC, BAD_NAME, BAD_SIZE, DIRECTORY_FULL, NAME_EXISTS, NO_SPACE. */
int32_t arduinos_store(uint8_t *disc, size_t disc_len, const uint8_t *name, size_t name_len, const uint8_t *data,
                       size_t data_len);

/* Writes a file's bytes to out, which needs as many. Returns their number.
   Refused: WRONG_LENGTH, BAD_DISC, NO_SUCH_FILE, SHORT_OUTPUT. */
int32_t arduinos_retrieve(const uint8_t *disc, size_t disc_len, const uint8_t *name, size_t name_len, uint8_t *out,
                          size_t out_len);

/* Takes a file out of the directory; its data bytes stay until something is stored over them, or a program's OPEN makes
   a file there, which it fills with zeros. So a log that is erased and made again by OPEN has lost its tail: open it
   without erasing it, or retrieve it first. Returns 0.
   Refused: WRONG_LENGTH, BAD_DISC, BAD_AREA, NO_SUCH_FILE, FILE_IN_USE. */
int32_t arduinos_erase(uint8_t *disc, size_t disc_len, const uint8_t *area, size_t area_len, const uint8_t *name,
                       size_t name_len);

/* Writes a line for each file to out, in order of storing: name, space, length, newline. Needs no more than this text,
   at most ARDUINOS_FILES_OUTPUT bytes. Returns the bytes written, so 0 if there are no files.
   Refused: WRONG_LENGTH, BAD_DISC, SHORT_OUTPUT. */
int32_t arduinos_files(const uint8_t *disc, size_t disc_len, uint8_t *out, size_t out_len);

/* Returns the length of the longest free run, which is the longest file that still fits unless there are ten already.
   Refused: WRONG_LENGTH, BAD_DISC. */
int32_t arduinos_free_space(const uint8_t *disc, size_t disc_len);

/* Starts a file as a program, in the lowest ended slot, with a share of one turn a round. Returns the new process's ID,
   from 1.
   Refused: WRONG_LENGTH, BAD_DISC, BAD_AREA, NO_SLOT, NO_SUCH_FILE, NO_ID. */
int32_t arduinos_run(const uint8_t *disc, size_t disc_len, uint8_t *area, size_t area_len, const uint8_t *name,
                     size_t name_len);

/* Pauses a running process. Returns 0.
   Refused: WRONG_LENGTH, BAD_DISC, BAD_AREA, NO_SUCH_PROCESS, ALREADY_IN_STATE. */
int32_t arduinos_suspend(const uint8_t *disc, size_t disc_len, uint8_t *area, size_t area_len, uint32_t id);

/* Lets a paused process run on. Returns 0.
   Refused: WRONG_LENGTH, BAD_DISC, BAD_AREA, NO_SUCH_PROCESS, ALREADY_IN_STATE. */
int32_t arduinos_resume(const uint8_t *disc, size_t disc_len, uint8_t *area, size_t area_len, uint32_t id);

/* Ends a live process with fault 0 and frees its variables. Returns 0.
   Refused: WRONG_LENGTH, BAD_DISC, BAD_AREA, NO_SUCH_PROCESS. */
int32_t arduinos_kill(const uint8_t *disc, size_t disc_len, uint8_t *area, size_t area_len, uint32_t id);

/* Sets the share of a live process, running or paused: how many turns in a row a round gives it, 1 to 8. It is kept
   until the process ends; a program that is started again begins with 1. A share changes when a process has its turns,
   not what they do: it behaves by its own turns, counted singly. Writes one byte of its record. Returns 0.
   Refused: WRONG_LENGTH, BAD_DISC, BAD_AREA, NO_SUCH_PROCESS, BAD_SHARE. */
int32_t arduinos_share(const uint8_t *disc, size_t disc_len, uint8_t *area, size_t area_len, uint32_t id,
                       uint32_t share);

/* Writes a line for each live process to out, by slot: ID, space, r or p, space, name, newline. Needs no more than this
   text, at most ARDUINOS_LIST_OUTPUT bytes. Returns the bytes written, so 0 if no process lives.
   Refused: WRONG_LENGTH, BAD_DISC, BAD_AREA, SHORT_OUTPUT. */
int32_t arduinos_list(const uint8_t *disc, size_t disc_len, const uint8_t *area, size_t area_len, uint8_t *out,
                      size_t out_len);

/* Executes one instruction of the process in a slot, 0 to 9, whatever its share. Needs ARDUINOS_TURN_OUTPUT bytes of
   out, whatever is printed. Returns the bytes it printed to out, 0 if it ended.
   The clock counts milliseconds from any beginning. Programs see its low 16 bits as a signed number, -32,768 to 32,767.
   A wait (DELAYUNTIL) lasts 1 to 32,767 ms, across the end of these bits too; a turn must come within 32,768 ms after
   its end (docs/GUIDE.md, part 5).
   Refused: WRONG_LENGTH, BAD_DISC, BAD_AREA, SHORT_OUTPUT, NOT_RUNNING. */
int32_t arduinos_turn(uint8_t *disc, size_t disc_len, uint8_t *area, size_t area_len, uint32_t slot, uint32_t clock,
                      uint8_t *out, size_t out_len);

/* Turns for each slot from 0 to 9 that runs when it is reached: as many in a row as its share is then, while it stays
   running. All are under one clock; what they print is joined in out. Needs ARDUINOS_ROUND_OUTPUT bytes of out,
   whatever is printed and whatever the shares are. Returns the bytes printed by all of them, so 0 also if nothing runs.
   Refused: WRONG_LENGTH, BAD_DISC, BAD_AREA, SHORT_OUTPUT. */
int32_t arduinos_round(uint8_t *disc, size_t disc_len, uint8_t *area, size_t area_len, uint32_t clock, uint8_t *out,
                       size_t out_len);

#ifdef __cplusplus
}
#endif

#endif
