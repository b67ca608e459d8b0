/*
 * Programs that use every instruction, with what they print and the fault they end by.
 */
#ifndef PROGRAMS_H
#define PROGRAMS_H

#include <stddef.h>
#include <stdint.h>

struct program {
    const char *what;
    const uint8_t *bytes;
    size_t length;
    const char *prints;
    uint8_t fault; /* 0: it ends by STOP */
};

/* Each is run under the name p, on a disc with a free run of exactly LOG_SIZE bytes, in which it may open a file. */
#define LOG_SIZE 20
extern const struct program programs[];
extern const size_t program_count;

/* What stands on the stack before an instruction that is tried at the end of the disc: up to five operands, and a stack
   that is full. */
struct prefix {
    const uint8_t *bytes;
    size_t length;
};
extern const struct prefix prefixes[];
extern const size_t prefix_count;
#define LONGEST_PREFIX 32
/* The most instructions of a prefix, and the one that is tried. */
#define PREFIX_TURNS 8

/* Prints 29 letters and a newline, the most that an instruction prints. */
extern const struct program letters;

/* Prints four letters, one in two turns, and ends with the ninth. */
extern const struct program spelling;

/* Pushes twice, then prints 130 bytes in eight turns, the most of a share. */
extern const struct program chatter;
#define CHATTER_BYTES 130

/* Starts the file child and waits for its end. */
extern const struct program parent, child;

#endif
