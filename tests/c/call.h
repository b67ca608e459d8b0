/*
 * One call of the kernel, made on guarded buffers.
 */
#ifndef CALL_H
#define CALL_H

#include <stddef.h>
#include <stdint.h>

enum operation {
    FORMAT, BOOT, STORE, RETRIEVE, ERASE, FILES, FREE_SPACE, RUN, SUSPEND, RESUME, KILL, SHARE, LIST, TURN, ROUND,
    OPERATION_COUNT
};

/* What an operation is lent, as bits. */
enum { DISC = 1, AREA = 2, NAME = 4, DATA = 8, OUT = 16 };
enum { BUFFER_COUNT = 5 };

struct operation_facts {
    const char *name;
    unsigned lent;     /* the buffers it takes */
    unsigned changed;  /* those of them that are not const */
    unsigned refusals; /* bit n: refusal n is one of its refusals in the header */
};
extern const struct operation_facts operations[OPERATION_COUNT];

/* Longer than any disc or work area. */
#define ROOM 5120

/* The length of the disc that calls are lent, short or long, and the data bytes that it has. */
extern size_t disc_size;
size_t data_size(void);

/* The buffers between calls, with room for wrong lengths. */
struct state {
    uint8_t disc[ROOM];
    uint8_t area[ROOM];
    uint8_t out[ROOM];
};

struct call {
    enum operation operation;
    size_t disc_length, area_length, out_length;
    const uint8_t *name;
    size_t name_length;
    const uint8_t *data;
    size_t data_length;
    uint32_t id, share, slot, clock;
};

/* A call with buffers of the right lengths, and as much output as the operation can ever need. */
struct call call_of(enum operation operation);

/* Makes the call on both sides, from the same state, which is then what the call left, and tests all that must hold:
   nothing is touched outside, const buffers are not written, a refused call writes nothing, output beyond the number
   stays, and both sides agree. Returns the number. */
int32_t call_guarded(const struct call *call, struct state *state);

/* How many calls were made, and how many tests failed. */
extern unsigned long calls_made;
extern unsigned long tests_failed;

/* Reports a failed test, with the call that is being made if there is one. */
void fail(const char *what);

/* Tests that every operation was done, and refused by each of its refusals and by no other; counts from here on again. */
void test_reached(void);

/* Maps the buffers. From here on a touch outside is told, with the call, before it ends the program. */
void prepare_guard(void);

#endif
