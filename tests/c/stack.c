/*
 * How much C stack each function of the kernel uses: the most over the calls below, on discs of both lengths.
 *
 * stack    prints a table: function, calls made, bytes
 *
 * Each call is made on a stack of its own that was filled with a pattern; the deepest byte that is no longer the pattern
 * tells the depth. It is made twice, with two patterns, so that a byte written with the pattern's value is told too.
 * What the frames of this program take is measured by a call of a function that does nothing, and taken off. The return
 * address of the kernel's function is counted. Bytes that a frame reserves and never writes are not seen where they are
 * the deepest.
 */
#define _XOPEN_SOURCE 700 /* ucontext */

#include "arduinos.h"
#include "programs.h"

#include <stdbool.h>
#include <stdio.h>
#include <stdlib.h>
#include <string.h>
#include <ucontext.h>

#define STACK_SIZE 32768
#define RETURN_ADDRESS sizeof(void *)

enum operation {
    FORMAT, BOOT, STORE, RETRIEVE, ERASE, FILES, FREE_SPACE, RUN, SUSPEND, RESUME, KILL, SHARE, LIST, TURN, ROUND,
    COUNT, NOTHING = COUNT
};

static const char *const names[COUNT] = {
    "format", "boot", "store", "retrieve", "erase", "files", "free_space",
    "run", "suspend", "resume", "kill", "share", "list", "turn", "round"
};

static uint8_t disc[ARDUINOS_LONG_DISC_SIZE], area[ARDUINOS_AREA_SIZE], out[ARDUINOS_LONG_MAX_DATA];
static size_t disc_length, area_length = sizeof area, out_length = sizeof out;

/* The call to be made. */
static enum operation operation;
static const uint8_t *name, *data;
static size_t name_length, data_length;
static uint32_t number, turns, clock_ms;
static int32_t answer;

static unsigned char painted[STACK_SIZE];
static ucontext_t measurer, measured;

static size_t deepest[COUNT];
static unsigned long calls[COUNT];
static size_t own_frames;

static int32_t nothing(void)
{
    return 0;
}

static int32_t (*volatile nothing_called)(void) = nothing;

static void make_call(void)
{
    switch (operation) {
    case FORMAT: answer = arduinos_format(disc, disc_length, area, area_length); break;
    case BOOT: answer = arduinos_boot(area, area_length); break;
    case STORE: answer = arduinos_store(disc, disc_length, name, name_length, data, data_length); break;
    case RETRIEVE: answer = arduinos_retrieve(disc, disc_length, name, name_length, out, out_length); break;
    case ERASE: answer = arduinos_erase(disc, disc_length, area, area_length, name, name_length); break;
    case FILES: answer = arduinos_files(disc, disc_length, out, out_length); break;
    case FREE_SPACE: answer = arduinos_free_space(disc, disc_length); break;
    case RUN: answer = arduinos_run(disc, disc_length, area, area_length, name, name_length); break;
    case SUSPEND: answer = arduinos_suspend(disc, disc_length, area, area_length, number); break;
    case RESUME: answer = arduinos_resume(disc, disc_length, area, area_length, number); break;
    case KILL: answer = arduinos_kill(disc, disc_length, area, area_length, number); break;
    case SHARE: answer = arduinos_share(disc, disc_length, area, area_length, number, turns); break;
    case LIST: answer = arduinos_list(disc, disc_length, area, area_length, out, out_length); break;
    case TURN:
        answer = arduinos_turn(disc, disc_length, area, area_length, number, clock_ms, out, out_length);
        break;
    case ROUND: answer = arduinos_round(disc, disc_length, area, area_length, clock_ms, out, out_length); break;
    default: answer = nothing_called(); break;
    }
}

/* The stack grows downwards: bytes from the deepest changed one to the top. */
static size_t changed(unsigned char pattern)
{
    size_t untouched = 0;

    while (untouched < sizeof painted && painted[untouched] == pattern)
        untouched++;
    if (untouched == 0) {
        fputs("stack: the painted stack is too short\n", stderr);
        exit(1);
    }
    return sizeof painted - untouched;
}

static size_t depth_with(unsigned char pattern)
{
    memset(painted, pattern, sizeof painted);
    getcontext(&measured);
    measured.uc_stack.ss_sp = painted;
    measured.uc_stack.ss_size = sizeof painted;
    measured.uc_link = &measurer;
    makecontext(&measured, make_call, 0);
    swapcontext(&measurer, &measured);
    return changed(pattern);
}

/* Makes the call twice from the same state, and keeps what the second left. */
static size_t depth(void)
{
    uint8_t disc_before[sizeof disc], area_before[sizeof area];
    size_t first, second;

    memcpy(disc_before, disc, sizeof disc);
    memcpy(area_before, area, sizeof area);
    first = depth_with(0xA5);
    memcpy(disc, disc_before, sizeof disc);
    memcpy(area, area_before, sizeof area);
    second = depth_with(0x5A);
    return first > second ? first : second;
}

static int32_t call(enum operation which)
{
    operation = which;
    size_t bytes = depth() - own_frames + RETURN_ADDRESS;
    if (bytes > deepest[which])
        deepest[which] = bytes;
    calls[which]++;
    return answer;
}

/* The same refused, by a wrong length and by too short an output. */
static int32_t call_also_refused(enum operation which)
{
    disc_length--;
    area_length--;
    call(which);
    disc_length++;
    area_length++;
    out_length = 0;
    uint8_t disc_kept[sizeof disc], area_kept[sizeof area];
    memcpy(disc_kept, disc, sizeof disc);
    memcpy(area_kept, area, sizeof area);
    call(which);
    memcpy(disc, disc_kept, sizeof disc);
    memcpy(area, area_kept, sizeof area);
    out_length = sizeof out;
    return call(which);
}

static void called(const char *text)
{
    name = (const uint8_t *)text;
    name_length = strlen(text);
}

static void store(const char *text, const uint8_t *bytes, size_t length)
{
    called(text);
    data = bytes;
    data_length = length;
    call(STORE);
}

static void listings(void)
{
    call_also_refused(FILES);
    call_also_refused(FREE_SPACE);
    call_also_refused(LIST);
}

/* Each command, done and refused, to the process of an ID; it is left with the most turns. */
static void commands(uint32_t id)
{
    number = id;
    turns = ARDUINOS_MAX_SHARE + 1;
    call_also_refused(SHARE);
    turns = ARDUINOS_MAX_SHARE;
    call_also_refused(SHARE);
    call_also_refused(RESUME);
    call_also_refused(SUSPEND);
    call_also_refused(SUSPEND);
    call_also_refused(RESUME);
}

static bool lives(int slot)
{
    return area[ARDUINOS_RECORD(slot) + ARDUINOS_RECORD_STATE] != ARDUINOS_STATE_ENDED;
}

/* A disc with the program p, the child that it may start, seven more files and LOG_SIZE free bytes. */
static void full_disc(const struct program *program)
{
    static const uint8_t filling[ARDUINOS_MAX_DATA];
    char text[] = "f0";

    call(FORMAT);
    store("p", program->bytes, program->length);
    store("child", child.bytes, child.length);
    for (int i = 0; i < 6; i++) {
        text[1] = (char)('0' + i);
        store(text, filling, 1);
    }
    call(FREE_SPACE);
    store("filling", filling, (size_t)answer - LOG_SIZE);
    call(BOOT);
}

/* Ten processes of one program: turns of the first and the last, then rounds, to the end. */
static void run_program(const struct program *program)
{
    full_disc(program);
    listings();
    called("p");
    for (int i = 0; i < 10; i++)
        call_also_refused(RUN);
    call_also_refused(RUN);
    call_also_refused(ERASE);
    listings();
    commands(1);
    commands(10);
    for (int i = 0; i < 2; i++) { /* a kill that is done, and one refused */
        number = 5;
        call_also_refused(KILL);
    }
    call_also_refused(SHARE);
    for (int i = 0; i < 20; i++) {
        clock_ms += 10;
        number = 0;
        call_also_refused(TURN);
        number = 9;
        call_also_refused(TURN);
    }
    for (int i = 0; i < 70; i++) {
        clock_ms += 10;
        call_also_refused(ROUND);
    }
    for (int slot = 0; slot < 10; slot++) {
        number = (uint32_t)slot + 1;
        if (lives(slot))
            call_also_refused(KILL);
        call_also_refused(KILL);
    }
    call_also_refused(RETRIEVE);
    call_also_refused(ERASE);
    call_also_refused(RETRIEVE);
    call_also_refused(STORE);
    call_also_refused(STORE);
    call_also_refused(BOOT);
    call_also_refused(FORMAT);
}

/* Every byte as an instruction, on what each prefix leaves on the stack. */
static void run_every_byte(const struct prefix *prefix)
{
    for (int byte = 0; byte < 256; byte++) {
        uint8_t bytes[LONGEST_PREFIX + 6];
        struct program program = { "byte", bytes, prefix->length + 6, "", 0 };

        memcpy(bytes, prefix->bytes, prefix->length);
        memset(bytes + prefix->length, 0, 6);
        bytes[prefix->length] = (uint8_t)byte;
        full_disc(&program);
        called("p");
        call(RUN);
        number = 0;
        for (int i = 0; i < PREFIX_TURNS; i++)
            call(TURN);
    }
}

static void run_on(size_t length)
{
    disc_length = length;
    for (size_t i = 0; i < program_count; i++)
        run_program(&programs[i]);
    run_program(&parent);
    for (size_t i = 0; i < prefix_count; i++)
        run_every_byte(&prefixes[i]);
}

int main(void)
{
    /* Once uncounted: what the C library does when one of its functions is first called is not the kernel's. */
    disc_length = ARDUINOS_DISC_SIZE;
    run_program(&programs[0]);
    memset(deepest, 0, sizeof deepest);
    memset(calls, 0, sizeof calls);

    operation = NOTHING;
    own_frames = depth();

    run_on(ARDUINOS_DISC_SIZE);
    run_on(ARDUINOS_LONG_DISC_SIZE);

    printf("%-12s %8s %8s\n", "function", "calls", "bytes");
    for (int i = 0; i < COUNT; i++)
        printf("%-12s %8lu %8zu\n", names[i], calls[i], deepest[i]);
    return 0;
}
