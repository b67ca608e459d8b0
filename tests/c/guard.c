/*
 * A belt beside the proof: every function of the kernel on buffers of exact size beside pages that may not be touched.
 * Calls with right and wrong lengths, done and refused, damaged buffers, turns of programs that use every instruction.
 * Status 0: every test held. 1: one did not. A touch where none may be ends the program by SIGSEGV.
 */
#include "arduinos.h"
#include "call.h"
#include "programs.h"

#include <stdio.h>
#include <string.h>

static struct state state;
static uint8_t filler[ROOM];

/* Where the disc and the work area are written directly, to make states that calls reach only after long. */
enum { FILE_COUNT = 160, VARIABLE_COUNT = 406, NEXT_ID = 407, ZEROS = 409 };

/* ---- Calls that must give a number ---- */

static void expect(const struct call *call, int32_t number)
{
    int32_t given = call_guarded(call, &state);
    if (given == number)
        return;
    tests_failed++;
    printf("guard: call %lu, %s gave %ld and not %ld\n", calls_made, operations[call->operation].name, (long)given,
           (long)number);
}

static void plain(enum operation operation, int32_t number)
{
    struct call call = call_of(operation);
    expect(&call, number);
}

static void named(enum operation operation, const char *name, int32_t number)
{
    struct call call = call_of(operation);
    call.name = (const uint8_t *)name;
    call.name_length = strlen(name);
    expect(&call, number);
}

static void store(const char *name, const uint8_t *data, size_t length, int32_t number)
{
    struct call call = call_of(STORE);
    call.name = (const uint8_t *)name;
    call.name_length = strlen(name);
    call.data = data;
    call.data_length = length;
    expect(&call, number);
}

static void command(enum operation operation, uint32_t id, int32_t number)
{
    struct call call = call_of(operation);
    call.id = id;
    expect(&call, number);
}

static void share(uint32_t id, uint32_t turns, int32_t number)
{
    struct call call = call_of(SHARE);
    call.id = id;
    call.share = turns;
    expect(&call, number);
}

static void turn(uint32_t slot, int32_t number)
{
    struct call call = call_of(TURN);
    call.slot = slot;
    expect(&call, number);
}

/* An operation lent exactly the output it needs, and then less. */
static void output_of(enum operation operation, const char *name, size_t needed, int32_t number)
{
    struct call call = call_of(operation);
    call.name = (const uint8_t *)name;
    call.name_length = strlen(name);
    call.out_length = needed;
    expect(&call, number);
    if (needed == 0)
        return;
    call.out_length = needed - 1;
    expect(&call, ARDUINOS_SHORT_OUTPUT);
    call.out_length = 0;
    expect(&call, ARDUINOS_SHORT_OUTPUT);
}

static const uint8_t *record(uint32_t slot)
{
    return state.area + ARDUINOS_RECORD(slot);
}

/* A share that is set, of the process in a slot: its byte is written and no other. */
static void set_share(uint32_t slot, uint32_t id, uint32_t turns)
{
    struct state wanted = state;
    wanted.area[ARDUINOS_RECORD(slot) + ARDUINOS_RECORD_SHARE] = (uint8_t)turns;
    share(id, turns, 0);
    if (memcmp(state.area, wanted.area, ARDUINOS_AREA_SIZE) != 0)
        fail("share wrote something else than the share");
}

static void has_share(uint32_t slot, uint8_t turns)
{
    if (record(slot)[ARDUINOS_RECORD_SHARE] != turns)
        fail("a process has another share");
}

static void set_next_id(unsigned id)
{
    state.area[NEXT_ID] = (uint8_t)(id % 256);
    state.area[NEXT_ID + 1] = (uint8_t)(id / 256);
}

/* ---- Refusals 1 to 3, of every operation ---- */

static void wrong_lengths(void)
{
    static const size_t lengths[] = { 0,    1,    160,  1023, 1024, 1025, 1055,
                                      1056, 1057, 2048, 4095, 4096, 4097, ROOM };
    enum { COUNT = sizeof lengths / sizeof lengths[0] };

    plain(FORMAT, 0);
    for (int i = 0; i < OPERATION_COUNT * COUNT * COUNT; i++) {
        struct call call = call_of((enum operation)(i / (COUNT * COUNT)));
        unsigned lent = operations[call.operation].lent;
        call.disc_length = lengths[i / COUNT % COUNT];
        call.area_length = lengths[i % COUNT];
        if ((lent & DISC && call.disc_length != ARDUINOS_DISC_SIZE && call.disc_length != ARDUINOS_LONG_DISC_SIZE) ||
            (lent & AREA && call.area_length != ARDUINOS_AREA_SIZE))
            expect(&call, ARDUINOS_WRONG_LENGTH);
    }
}

static void bad_buffers(void)
{
    plain(FORMAT, 0);
    for (int i = 0; i < OPERATION_COUNT; i++) {
        enum operation operation = (enum operation)i;
        unsigned lent = operations[i].lent;
        struct state good = state;
        if (operation == FORMAT || operation == BOOT)
            continue;
        state.area[ZEROS] = 1;
        if (lent & AREA)
            plain(operation, ARDUINOS_BAD_AREA);
        state.disc[FILE_COUNT] = ARDUINOS_MAX_FILES + 1;
        plain(operation, ARDUINOS_BAD_DISC);
        state = good;
    }
    memset(state.disc, 0xFF, disc_size);
    plain(FREE_SPACE, ARDUINOS_BAD_DISC);
    plain(FORMAT, 0);
}

/* ---- The limits that the header names ---- */

static void names_and_sizes(void)
{
    plain(FORMAT, 0);
    output_of(FILES, "", 0, 0);
    output_of(LIST, "", 0, 0);
    store("", filler, 1, ARDUINOS_BAD_NAME);
    store("twelve_bytes", filler, 1, ARDUINOS_BAD_NAME);
    store("a b", filler, 1, ARDUINOS_BAD_NAME);
    store("\x7f", filler, 1, ARDUINOS_BAD_NAME);
    store("p", filler, 0, ARDUINOS_BAD_SIZE);
    store("p", filler, data_size() + 1, ARDUINOS_BAD_SIZE);
    store("eleven_byte", filler, data_size(), 0);
    plain(FREE_SPACE, 0);
    store("p", filler, 1, ARDUINOS_NO_SPACE);
    store("eleven_byte", filler, 1, ARDUINOS_NAME_EXISTS);
    output_of(RETRIEVE, "eleven_byte", data_size(), (int32_t)data_size());
    if (memcmp(state.out, filler, data_size()) != 0)
        fail("retrieve gave other bytes than were stored");
    named(RETRIEVE, "p", ARDUINOS_NO_SUCH_FILE);
    named(RETRIEVE, "", ARDUINOS_NO_SUCH_FILE);
    named(ERASE, "", ARDUINOS_NO_SUCH_FILE);
    named(ERASE, "eleven_bytes", ARDUINOS_NO_SUCH_FILE);
    named(ERASE, "eleven_byte", 0);
    plain(FREE_SPACE, (int32_t)data_size());
}

/* Ten files with the longest lines that the data bytes allow: of 863 eight of three digits and two of two, of 3,935
   three of four digits and seven of three. */
static size_t file_length(int i)
{
    if (disc_size == ARDUINOS_DISC_SIZE)
        return i < 8 ? 100 : 30;
    return i < 3 ? 1000 : 133;
}

static void ten_files(void)
{
    size_t text = disc_size == ARDUINOS_DISC_SIZE ? 8 * 16 + 2 * 15 : 3 * 17 + 7 * 16;
    plain(FORMAT, 0);
    for (int i = 0; i < ARDUINOS_MAX_FILES; i++) {
        char name[] = "namediffer0";
        name[ARDUINOS_MAX_NAME - 1] = (char)('0' + i);
        store(name, filler, file_length(i), 0);
    }
    store("p", filler, 1, ARDUINOS_DIRECTORY_FULL);
    output_of(FILES, "", text, (int32_t)text);
    named(ERASE, "namediffer4", 0);
    plain(FREE_SPACE, (int32_t)file_length(4));
    store("p", filler, file_length(4) + 1, ARDUINOS_NO_SPACE);
    store("p", filler, file_length(4), 0);
}

static void processes(void)
{
    set_next_id(20000);
    for (int i = 0; i < ARDUINOS_MAX_PROCESSES; i++)
        named(RUN, "namediffer9", 20000 + i);
    named(RUN, "missing", ARDUINOS_NO_SLOT);
    output_of(LIST, "", ARDUINOS_LIST_OUTPUT, ARDUINOS_LIST_OUTPUT);
    named(ERASE, "namediffer9", ARDUINOS_FILE_IN_USE);
    command(SUSPEND, 20009, 0);
    command(SUSPEND, 20009, ARDUINOS_ALREADY_IN_STATE);
    turn(9, ARDUINOS_NOT_RUNNING);
    command(RESUME, 20009, 0);
    command(RESUME, 20009, ARDUINOS_ALREADY_IN_STATE);
    turn(10, ARDUINOS_NOT_RUNNING);
    turn(UINT32_MAX, ARDUINOS_NOT_RUNNING);
    command(KILL, 20009, 0);
    for (int i = SUSPEND; i <= SHARE; i++) { /* a share of 0 too: 14 comes before 22 */
        command((enum operation)i, 20009, ARDUINOS_NO_SUCH_PROCESS);
        command((enum operation)i, 20000 + 65536, ARDUINOS_NO_SUCH_PROCESS);
        command((enum operation)i, UINT32_MAX, ARDUINOS_NO_SUCH_PROCESS);
    }
    named(RUN, "", ARDUINOS_NO_SUCH_FILE);
    named(RUN, "missing", ARDUINOS_NO_SUCH_FILE);
    set_next_id(ARDUINOS_MAX_ID);
    named(RUN, "namediffer9", ARDUINOS_MAX_ID);
    command(KILL, ARDUINOS_MAX_ID, 0);
    named(RUN, "namediffer9", ARDUINOS_NO_ID);
    plain(BOOT, 0);
    named(ERASE, "namediffer9", 0);
}

/* Every share, and what is none. */
static void shares(void)
{
    static const uint32_t outside[] = { 0, ARDUINOS_MAX_SHARE + 1, 255, 256, 256 + 1, 65536 + 1, UINT32_MAX };
    plain(FORMAT, 0);
    store("p", spelling.bytes, spelling.length, 0);
    named(RUN, "p", 1);
    named(RUN, "p", 2);
    has_share(1, 0);
    for (uint32_t i = 1; i <= ARDUINOS_MAX_SHARE; i++)
        set_share(1, 2, i);
    for (size_t i = 0; i < sizeof outside / sizeof outside[0]; i++) {
        share(2, outside[i], ARDUINOS_BAD_SHARE);
        share(3, outside[i], ARDUINOS_NO_SUCH_PROCESS);
    }
    share(65536 + 2, 1, ARDUINOS_NO_SUCH_PROCESS);
    command(SUSPEND, 2, 0);
    has_share(1, ARDUINOS_MAX_SHARE);
    set_share(1, 2, 3);
    command(RESUME, 2, 0);
    has_share(1, 3);
    command(KILL, 2, 0);
    has_share(1, 0);
    share(2, 1, ARDUINOS_NO_SUCH_PROCESS);
}

/* A share above 8 is a bad area in a live record, and nothing in an ended one. */
static void shares_as_bytes(void)
{
    uint8_t *first = state.area + ARDUINOS_RECORD(0) + ARDUINOS_RECORD_SHARE;
    uint8_t *second = state.area + ARDUINOS_RECORD(1) + ARDUINOS_RECORD_SHARE;
    *second = UINT8_MAX;
    *first = ARDUINOS_MAX_SHARE;
    plain(LIST, (int32_t)strlen("1 r p\n"));
    *first = ARDUINOS_MAX_SHARE + 1;
    for (int i = RUN; i < OPERATION_COUNT; i++)
        plain((enum operation)i, ARDUINOS_BAD_AREA);
    named(ERASE, "p", ARDUINOS_BAD_AREA);
    *first = 0;
    named(RUN, "p", 3);
    has_share(1, 0);
}

/* ---- Programs ---- */

/* The program as the disc's first bytes, in slot 0; a file that it opens then fills the disc's last bytes. */
static uint32_t at_first_place(const struct program *program)
{
    plain(FORMAT, 0);
    store("p", program->bytes, program->length, 0);
    store("rest", filler, data_size() - LOG_SIZE - program->length, 0);
    named(RUN, "p", 1);
    return 0;
}

/* The program as the disc's last bytes, in slot 9, whose stack ends the work area. */
static uint32_t at_last_place(const uint8_t *bytes, size_t length)
{
    plain(FORMAT, 0);
    store("hole", filler, LOG_SIZE, 0);
    store("rest", filler, data_size() - LOG_SIZE - length, 0);
    store("p", bytes, length, 0);
    named(ERASE, "hole", 0);
    for (int i = 1; i < ARDUINOS_MAX_PROCESSES; i++)
        named(RUN, "rest", i);
    named(RUN, "p", ARDUINOS_MAX_PROCESSES);
    return ARDUINOS_MAX_PROCESSES - 1;
}

/* Turns of a slot until its process ends, the clock 10 ms on at each; what it printed is joined in text. */
static void turns(uint32_t slot, int most, char *text, size_t room)
{
    size_t length = 0;
    for (int i = 0; i < most && record(slot)[ARDUINOS_RECORD_STATE] == ARDUINOS_STATE_RUNNING; i++) {
        struct call call = call_of(TURN);
        call.slot = slot;
        call.clock = (uint32_t)i * 10;
        int32_t printed = call_guarded(&call, &state);
        if (printed < 0)
            fail("a turn of a running process was refused");
        else if (length + (size_t)printed < room) {
            memcpy(text + length, state.out, (size_t)printed);
            length += (size_t)printed;
        }
    }
    text[length] = 0;
}

static void test_end(const struct program *program, uint32_t slot, const char *text)
{
    if (record(slot)[ARDUINOS_RECORD_STATE] == ARDUINOS_STATE_ENDED &&
        record(slot)[ARDUINOS_RECORD_FAULT] == program->fault && strcmp(text, program->prints) == 0)
        return;
    tests_failed++;
    printf("guard: program %s in slot %lu: state %d, fault %d and not %d, printed \"%s\"\n", program->what,
           (unsigned long)slot, record(slot)[ARDUINOS_RECORD_STATE], record(slot)[ARDUINOS_RECORD_FAULT],
           program->fault, text);
}

static void run_program(const struct program *program, uint32_t slot)
{
    char text[200];
    turns(slot, 200, text, sizeof text);
    test_end(program, slot, text);
}

/* Rounds until nothing lives, the clock 10 ms on at each; returns what was printed as a text. */
static const char *rounds(int most)
{
    static char text[ARDUINOS_ROUND_OUTPUT + 1];
    size_t length = 0;
    struct call call = call_of(LIST);
    for (int i = 0; i < most && call_guarded(&call, &state) > 0; i++) {
        struct call round = call_of(ROUND);
        round.clock = (uint32_t)i * 10;
        int32_t printed = call_guarded(&round, &state);
        if (printed > 0 && length + (size_t)printed < sizeof text) {
            memcpy(text + length, state.out, (size_t)printed);
            length += (size_t)printed;
        }
    }
    text[length] = 0;
    return text;
}

/* By rounds with a share it prints and ends as it does turn by turn. */
static void run_shared(const struct program *program, uint32_t due)
{
    uint32_t slot = at_first_place(program);
    set_share(slot, 1, due);
    test_end(program, slot, rounds(200));
    has_share(slot, 0);
}

static void all_programs(void)
{
    for (size_t i = 0; i < program_count; i++) {
        run_program(&programs[i], at_first_place(&programs[i]));
        run_program(&programs[i], at_last_place(programs[i].bytes, programs[i].length));
        run_shared(&programs[i], 3);
        run_shared(&programs[i], ARDUINOS_MAX_SHARE);
    }
}

/* Every byte as an instruction that ends the disc, with none, one or two argument bytes, on several stacks. */
static void every_instruction(void)
{
    char text[400];
    for (size_t i = 0; i < prefix_count; i++) {
        for (size_t arguments = 0; arguments <= 2; arguments++) {
            uint8_t code[LONGEST_PREFIX + 3] = { 0 };
            size_t length = prefixes[i].length + 1 + arguments;
            memcpy(code, prefixes[i].bytes, prefixes[i].length);
            uint32_t slot = at_last_place(code, length);
            struct state started = state;

            for (int byte = 0; byte < 256; byte++) {
                code[length - arguments - 1] = (uint8_t)byte;
                state = started;
                memcpy(state.disc + disc_size - length, code, length);
                turns(slot, PREFIX_TURNS, text, sizeof text);
            }
        }
    }
}

static void several_processes(void)
{
    plain(FORMAT, 0);
    store("letters", letters.bytes, letters.length, 0);
    for (int i = 1; i <= ARDUINOS_MAX_PROCESSES; i++)
        named(RUN, "letters", i);
    output_of(ROUND, "", ARDUINOS_ROUND_OUTPUT, 0);
    output_of(ROUND, "", ARDUINOS_ROUND_OUTPUT, ARDUINOS_MAX_PROCESSES * (int32_t)strlen(letters.prints));
    output_of(TURN, "", ARDUINOS_TURN_OUTPUT, 0);
    plain(ROUND, 0);
    plain(ROUND, 0);

    store("parent", parent.bytes, parent.length, 0);
    store("child", child.bytes, child.length, 0);
    named(RUN, "parent", 11);
    if (strcmp(rounds(50), parent.prints) != 0)
        fail("the parent and its child printed something else");
}

/* What a round prints, exactly the output lent that it needs, and then less. */
static void round_prints(const char *text)
{
    output_of(ROUND, "", ARDUINOS_ROUND_OUTPUT, (int32_t)strlen(text));
    if (memcmp(state.out, text, strlen(text)) != 0)
        fail("a round printed something else");
}

/* Four turns in a row, two, and one: the first is over in its third round, the next in its fifth. */
static void unequal_shares(void)
{
    plain(FORMAT, 0);
    store("p", spelling.bytes, spelling.length, 0);
    for (int i = 1; i <= 3; i++)
        named(RUN, "p", i);
    set_share(0, 1, 4);
    set_share(1, 2, 2);
    round_prints("aba");
    round_prints("cdba");
    has_share(0, 4);
    round_prints("c");
    has_share(0, 0);
    round_prints("db");
    if (strcmp(rounds(50), "cd") != 0)
        fail("the slowest printed something else");
}

/* Ten shares of 8, each with the most that it prints. */
static void whole_shares(void)
{
    char text[ARDUINOS_MAX_PROCESSES * CHATTER_BYTES + 1] = "";
    plain(FORMAT, 0);
    store("p", chatter.bytes, chatter.length, 0);
    for (int i = 0; i < ARDUINOS_MAX_PROCESSES; i++) {
        named(RUN, "p", i + 1);
        set_share((uint32_t)i, (uint32_t)i + 1, 2);
        strcat(text, chatter.prints);
    }
    round_prints("");
    for (int i = 0; i < ARDUINOS_MAX_PROCESSES; i++)
        set_share((uint32_t)i, (uint32_t)i + 1, ARDUINOS_MAX_SHARE);
    round_prints(text);
    round_prints("");
    plain(LIST, 0);
}

/* The parent waits through its share; the child begins in the same round, with no share set. */
static void forked_shares(void)
{
    plain(FORMAT, 0);
    store("parent", parent.bytes, parent.length, 0);
    store("child", child.bytes, child.length, 0);
    named(RUN, "parent", 1);
    set_share(0, 1, ARDUINOS_MAX_SHARE);
    state.area[ARDUINOS_RECORD(1) + ARDUINOS_RECORD_SHARE] = UINT8_MAX; /* an ended record's is not read */
    round_prints("");
    has_share(0, ARDUINOS_MAX_SHARE);
    has_share(1, 0);
    round_prints("c");
    round_prints("");
    round_prints("p");
    plain(LIST, 0);
}

/* ---- Damaged buffers ---- */

/* Always the same numbers. */
static uint32_t chosen(uint32_t below)
{
    static uint32_t seed = 1;
    seed = seed * 1664525u + 1013904223u;
    return (seed >> 8) % below;
}

/* Ten files, ten live processes with shares of 0 to 8, 25 variables, some open files. */
static void full_state(void)
{
    static const uint8_t code[] = {
        1, 1, 5, 'a', 1, 2, 5, 'b', 1, 3, 5, 'c',                                 /* CHAR, SET: three variables */
        3, 'n', 'a', 'm', 'e', 'd', 'i', 'f', 'f', 'e', 'r', '9', 0, 1, 1, 53,   /* STRING, CHAR, OPEN */
        65, 1, 'x', 51, 66                                                       /* LOOP, CHAR, PRINT, ENDLOOP */
    };
    char name[] = "namediffer0", text[400];
    char *digit = &name[ARDUINOS_MAX_NAME - 1];
    plain(FORMAT, 0);
    for (*digit = '0'; *digit <= '9'; ++*digit)
        store(name, code, sizeof code, 0);
    for (int i = 0; i < ARDUINOS_MAX_PROCESSES; i++) {
        *digit = (char)('0' + i);
        named(RUN, name, i + 1);
        turns((uint32_t)i, i < 5 ? 9 + i : 4, text, sizeof text);
        if (0 < i && i <= ARDUINOS_MAX_SHARE)
            set_share((uint32_t)i, (uint32_t)i + 1, (uint32_t)i);
    }
    if (state.area[VARIABLE_COUNT] != ARDUINOS_MAX_VARIABLES)
        fail("the state is not full");
}

static struct call any_call(void)
{
    struct call call = call_of((enum operation)chosen(OPERATION_COUNT));
    call.name = (const uint8_t *)"namediffer5";
    call.name_length = chosen(2) ? ARDUINOS_MAX_NAME : chosen(ARDUINOS_MAX_NAME);
    call.data = filler;
    call.data_length = chosen(100);
    call.id = chosen(12);
    call.share = chosen(10);
    call.slot = chosen(11);
    return call;
}

/* Each byte of the directory and of the work area changed alone, then a few changed together. */
static void damage(void)
{
    full_state();
    struct state good = state;
    for (size_t i = 0; i <= FILE_COUNT + ARDUINOS_AREA_SIZE; i++) {
        static const uint8_t flips[] = { 1, 128, 255 };
        for (size_t k = 0; k < sizeof flips; k++) {
            struct call call = call_of(TURN);
            call.slot = 9;
            state = good;
            *(i <= FILE_COUNT ? &state.disc[i] : &state.area[i - FILE_COUNT - 1]) ^= flips[k];
            call_guarded(&call, &state);
        }
    }
    for (int i = 0; i < 3000; i++) {
        struct call call = any_call();
        state = good;
        for (uint32_t k = chosen(4); k > 0; k--) {
            state.disc[chosen(FILE_COUNT + 1)] = (uint8_t)chosen(256);
            state.area[chosen(ARDUINOS_AREA_SIZE)] = (uint8_t)chosen(256);
        }
        call_guarded(&call, &state);
    }
}

static void all_calls(void)
{
    for (size_t i = 0; i < sizeof filler; i++)
        filler[i] = (uint8_t)(i % 251 + 1);
    memset(state.out, 0xEE, sizeof state.out);
    wrong_lengths();
    bad_buffers();
    names_and_sizes();
    ten_files();
    processes();
    shares();
    shares_as_bytes();
    all_programs();
    every_instruction();
    several_processes();
    unequal_shares();
    whole_shares();
    forked_shares();
    damage();
    test_reached();
}

int main(void)
{
    setvbuf(stdout, NULL, _IOLBF, BUFSIZ);
    prepare_guard();
    all_calls();
    disc_size = ARDUINOS_LONG_DISC_SIZE;
    all_calls();
    printf("guard: %lu calls, %lu tests failed\n", calls_made, tests_failed);
    return tests_failed != 0;
}
