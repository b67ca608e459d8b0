/*
 * The firmware of a box in small: power-up, programs stored and started, the round loop, refusals handled by name.
 * Standard output stands in for the serial line and an array for the EEPROM.
 *
 * box              with a real clock, about half a second
 * box --stepped    with a clock that moves 10 ms at each reading, so that every run prints the same
 */
#define _POSIX_C_SOURCE 199309L /* clock_gettime */

#include "arduinos.h"

#include <stdbool.h>
#include <stdio.h>
#include <stdlib.h>
#include <string.h>
#include <time.h>

/* The example ends then, whatever still runs. A box would go on. */
#define LAST_MS 5000u
#define STEP_MS 10u

/* What the board's EEPROM has: a hoist box 1,024 bytes; for a jib box -DBOX_DISC_SIZE=ARDUINOS_LONG_DISC_SIZE. */
#ifndef BOX_DISC_SIZE
#define BOX_DISC_SIZE ARDUINOS_DISC_SIZE
#endif

static uint8_t disc[BOX_DISC_SIZE];
static uint8_t area[ARDUINOS_AREA_SIZE];

/* Counts down from 3: the program of document 01. As the box's counter it gets more turns than the lamps. */
static const uint8_t down[] = {
    2, 0, 3,   /* INT 3 */
    5, 'n',    /* SET n */
    6, 'n',    /* GET n: the condition, two bytes */
    63, 2, 8,  /* WHILE: on zero it skips eight bytes and ENDWHILE */
    6, 'n',    /* GET n */
    52,        /* PRINTLN */
    6, 'n',    /* GET n */
    8,         /* DECREMENT */
    5, 'n',    /* SET n */
    64,        /* ENDWHILE */
    67         /* STOP */
};

/* Three lamps, 200 ms apart. The wait is over when the clock reaches the number on the stack. */
static const uint8_t lamp[] = {
    3, 'r', 'e', 'd', 0,           /* STRING red */
    52,                            /* PRINTLN */
    45,                            /* MILLIS */
    2, 0, 200,                     /* INT 200 */
    9,                             /* PLUS */
    44,                            /* DELAYUNTIL */
    3, 'a', 'm', 'b', 'e', 'r', 0, /* STRING amber */
    52,                            /* PRINTLN */
    45,                            /* MILLIS */
    2, 0, 200,                     /* INT 200 */
    9,                             /* PLUS */
    44,                            /* DELAYUNTIL */
    3, 'g', 'r', 'e', 'e', 'n', 0, /* STRING green */
    52,                            /* PRINTLN */
    67                             /* STOP */
};

/* Divides a load by a rated load that nobody has set: fault 7. */
static const uint8_t load[] = {
    3, 'l', 'o', 'a', 'd', 0, /* STRING load */
    52,                       /* PRINTLN */
    2, 1, 44,                 /* INT 300 */
    2, 0, 0,                  /* INT 0 */
    12,                       /* DIVIDEDBY */
    52,                       /* PRINTLN */
    67                        /* STOP */
};

/* ---- The serial line, the clock and the EEPROM ---- */

static void serial_write(const uint8_t *bytes, int32_t count)
{
    fwrite(bytes, 1, (size_t)count, stdout);
}

static bool stepped;

/* Milliseconds since the first reading. */
static uint32_t clock_ms(void)
{
    static uint32_t steps;
    static struct timespec first;
    struct timespec now;

    if (stepped)
        return STEP_MS * steps++;
    clock_gettime(CLOCK_MONOTONIC, &now);
    if (first.tv_sec == 0 && first.tv_nsec == 0)
        first = now;
    int64_t nanoseconds = (int64_t)(now.tv_sec - first.tv_sec) * 1000000000 + (now.tv_nsec - first.tv_nsec);
    return (uint32_t)(nanoseconds / 1000000);
}

static uint8_t eeprom[BOX_DISC_SIZE];
static unsigned long eeprom_writes;

/* Writes only what has changed: a cell bears some 100,000 writes. */
static void save_disc(void)
{
    for (size_t i = 0; i < sizeof disc; i++) {
        if (eeprom[i] != disc[i]) {
            eeprom[i] = disc[i];
            eeprom_writes++;
        }
    }
}

/* ---- Refusals and faults by name ---- */

static const char *refusal_name(int32_t number)
{
    switch (number) {
    case ARDUINOS_WRONG_LENGTH: return "wrong buffer length";
    case ARDUINOS_BAD_DISC: return "disc not good";
    case ARDUINOS_BAD_AREA: return "work area not good";
    case ARDUINOS_SHORT_OUTPUT: return "output too short";
    case ARDUINOS_BAD_NAME: return "bad name";
    case ARDUINOS_BAD_SIZE: return "no data, or more than a disc takes";
    case ARDUINOS_NAME_EXISTS: return "name exists";
    case ARDUINOS_DIRECTORY_FULL: return "ten files already";
    case ARDUINOS_NO_SPACE: return "no free run long enough";
    case ARDUINOS_NO_SUCH_FILE: return "no such file";
    case ARDUINOS_FILE_IN_USE: return "file in use";
    case ARDUINOS_NO_SLOT: return "ten processes live";
    case ARDUINOS_NO_ID: return "IDs used up";
    case ARDUINOS_NO_SUCH_PROCESS: return "no such process";
    case ARDUINOS_ALREADY_IN_STATE: return "already in that state";
    case ARDUINOS_NOT_RUNNING: return "not running";
    case ARDUINOS_BAD_SHARE: return "a share that is not 1 to 8";
    default: return "not a number of this kernel";
    }
}

static const char *fault_name(uint8_t fault)
{
    switch (fault) {
    case ARDUINOS_FAULT_NO_INSTRUCTION: return "no such instruction";
    case ARDUINOS_FAULT_CODE_ENDED: return "code ended";
    case ARDUINOS_FAULT_JUMP_OUTSIDE: return "jump outside the program";
    case ARDUINOS_FAULT_STACK_FULL: return "stack full";
    case ARDUINOS_FAULT_TOO_FEW_BYTES: return "too few bytes on the stack";
    case ARDUINOS_FAULT_WRONG_TYPE: return "wrong type";
    case ARDUINOS_FAULT_DIVISOR_ZERO: return "divisor zero";
    case ARDUINOS_FAULT_OUT_OF_RANGE: return "out of range";
    case ARDUINOS_FAULT_NO_VARIABLE: return "no such variable";
    case ARDUINOS_FAULT_NO_VARIABLE_SPACE: return "no space for a variable";
    case ARDUINOS_FAULT_NO_OPEN_FILE: return "no open file";
    case ARDUINOS_FAULT_FILE_ENDED: return "past the file's end";
    case ARDUINOS_FAULT_FILE_REFUSED: return "new file refused";
    default: return "not a fault of this kernel";
    }
}

/* The process whose end was reported last, of each slot. Booting begins IDs at 1 again, so it is forgotten then. */
static unsigned reported[ARDUINOS_MAX_PROCESSES];

static int32_t boot_area(void)
{
    memset(reported, 0, sizeof reported);
    return arduinos_boot(area, sizeof area);
}

/* The image may be damaged where the EEPROM is not, so that comes first; formatting loses all files. */
static void recover_disc(void)
{
    memcpy(disc, eeprom, sizeof disc);
    boot_area();
    if (arduinos_free_space(disc, sizeof disc) >= 0) {
        puts("box: disc read again");
        return;
    }
    puts("box: disc formatted");
    arduinos_format(disc, sizeof disc, area, sizeof area);
    save_disc();
}

/* Tells whether a call was done. Every refusal comes through here: it is reported, and what can be mended is. */
static bool done(const char *call, int32_t number)
{
    if (number >= 0)
        return true;
    printf("box: %s: %s\n", call, refusal_name(number));
    switch (number) {
    case ARDUINOS_WRONG_LENGTH:
    case ARDUINOS_SHORT_OUTPUT:
        puts("box: halted, the firmware is wrong");
        exit(1);
    case ARDUINOS_BAD_DISC:
        recover_disc();
        break;
    case ARDUINOS_BAD_AREA:
        puts("box: all processes ended");
        boot_area();
        break;
    case ARDUINOS_FILE_IN_USE:
        puts("box: to be tried again later");
        break;
    default:
        break;
    }
    return false;
}

/* ---- Files and processes ---- */

/* A name is lent without the zero of a C string. */
static const uint8_t *bytes_of(const char *text)
{
    return (const uint8_t *)text;
}

static void store(const char *name, const uint8_t *data, size_t length)
{
    if (done("store", arduinos_store(disc, sizeof disc, bytes_of(name), strlen(name), data, length)))
        save_disc();
}

/* The new process's ID, or a refusal. */
static int32_t run(const char *name)
{
    int32_t id = arduinos_run(disc, sizeof disc, area, sizeof area, bytes_of(name), strlen(name));
    if (done("run", id))
        printf("box: %s is process %ld\n", name, (long)id);
    else if (id == ARDUINOS_NO_SUCH_FILE)
        printf("box: going on without %s\n", name);
    return id;
}

/* A share is kept until the process ends: set it after each start. */
static void run_with_share(const char *name, uint32_t turns)
{
    int32_t id = run(name);
    if (id >= 0 && done("share", arduinos_share(disc, sizeof disc, area, sizeof area, (uint32_t)id, turns)))
        printf("box: %s has %lu turns a round\n", name, (unsigned long)turns);
}

static void erase(const char *name)
{
    if (!done("erase", arduinos_erase(disc, sizeof disc, area, sizeof area, bytes_of(name), strlen(name))))
        return;
    save_disc();
    printf("box: %s erased\n", name);
}

static void print_files(void)
{
    uint8_t out[ARDUINOS_FILES_OUTPUT];
    int32_t written = arduinos_files(disc, sizeof disc, out, sizeof out);
    if (done("files", written))
        serial_write(out, written);
    int32_t space = arduinos_free_space(disc, sizeof disc);
    if (done("free space", space))
        printf("box: %ld bytes free in a row\n", (long)space);
}

/* Prints the live processes, if asked to; returns whether there are any. */
static bool list(bool print)
{
    uint8_t out[ARDUINOS_LIST_OUTPUT];
    int32_t written = arduinos_list(disc, sizeof disc, area, sizeof area, out, sizeof out);
    if (!done("list", written))
        return false;
    if (print)
        serial_write(out, written);
    return written > 0;
}

/* Reports each ended process once. Why it ended is in its record, until the slot is taken again. */
static void report_ends(uint32_t now)
{
    for (int slot = 0; slot < ARDUINOS_MAX_PROCESSES; slot++) {
        const uint8_t *record = area + ARDUINOS_RECORD(slot);
        unsigned id = record[ARDUINOS_RECORD_ID] + 256u * record[ARDUINOS_RECORD_ID + 1];
        uint8_t fault = record[ARDUINOS_RECORD_FAULT];

        if (record[ARDUINOS_RECORD_STATE] != ARDUINOS_STATE_ENDED || id == 0 || id == reported[slot])
            continue;
        reported[slot] = id;
        printf("box: %.*s (process %u) ended at %lu ms", ARDUINOS_MAX_NAME,
               (const char *)record + ARDUINOS_RECORD_NAME, id, (unsigned long)now);
        if (fault != 0)
            printf(", fault %u: %s", fault, fault_name(fault));
        putchar('\n');
    }
}

/* ---- The box ---- */

/* A new EEPROM holds hex FF, which is no disc: the first call that reads it is refused, and it is formatted. */
static void power_up(void)
{
    memset(eeprom, 0xFF, sizeof eeprom);
    memcpy(disc, eeprom, sizeof disc);
    done("boot", boot_area());
    done("free space", arduinos_free_space(disc, sizeof disc));
}

/* Rounds until nothing lives. Each lends the clock, prints what the programs print and saves what they wrote. */
static void run_rounds(void)
{
    uint8_t out[ARDUINOS_ROUND_OUTPUT];
    for (uint32_t now = clock_ms(); list(false) && now < LAST_MS; now = clock_ms()) {
        int32_t printed = arduinos_round(disc, sizeof disc, area, sizeof area, now, out, sizeof out);
        if (!done("round", printed))
            continue;
        serial_write(out, printed);
        report_ends(now);
        save_disc();
    }
}

int main(int argc, char **argv)
{
    stepped = argc == 2 && strcmp(argv[1], "--stepped") == 0;
    if (argc > 1 && !stepped) {
        fputs("usage: box [--stepped]\n", stderr);
        return 2;
    }
    power_up();
    store("down", down, sizeof down);
    store("lamp", lamp, sizeof lamp);
    store("load", load, sizeof load);
    print_files();
    run_with_share("down", 4);
    run("lamp");
    run("horn");
    run("load");
    list(true);
    erase("lamp");
    run_rounds();
    erase("lamp");
    printf("box: %lu bytes of EEPROM written\n", eeprom_writes);
    return 0;
}
