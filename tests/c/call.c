#define _DEFAULT_SOURCE /* SA_RESETHAND */

#include "call.h"

#include "arduinos.h"
#include "guarded.h"

#include <signal.h>
#include <stdio.h>
#include <string.h>
#include <unistd.h>

#define BY(refusal) (1u << -ARDUINOS_##refusal)
#define BY_LENGTH BY(WRONG_LENGTH)
#define BY_DISC (BY_LENGTH | BY(BAD_DISC))
#define BY_BOTH (BY_DISC | BY(BAD_AREA))

const struct operation_facts operations[OPERATION_COUNT] = {
    [FORMAT] = { "format", DISC | AREA, DISC | AREA, BY_LENGTH },
    [BOOT] = { "boot", AREA, AREA, BY_LENGTH },
    [STORE] = { "store", DISC | NAME | DATA, DISC,
                BY_DISC | BY(BAD_NAME) | BY(BAD_SIZE) | BY(DIRECTORY_FULL) | BY(NAME_EXISTS) | BY(NO_SPACE) },
    [RETRIEVE] = { "retrieve", DISC | NAME | OUT, OUT, BY_DISC | BY(NO_SUCH_FILE) | BY(SHORT_OUTPUT) },
    [ERASE] = { "erase", DISC | AREA | NAME, DISC, BY_BOTH | BY(NO_SUCH_FILE) | BY(FILE_IN_USE) },
    [FILES] = { "files", DISC | OUT, OUT, BY_DISC | BY(SHORT_OUTPUT) },
    [FREE_SPACE] = { "free_space", DISC, 0, BY_DISC },
    [RUN] = { "run", DISC | AREA | NAME, AREA, BY_BOTH | BY(NO_SLOT) | BY(NO_SUCH_FILE) | BY(NO_ID) },
    [SUSPEND] = { "suspend", DISC | AREA, AREA, BY_BOTH | BY(NO_SUCH_PROCESS) | BY(ALREADY_IN_STATE) },
    [RESUME] = { "resume", DISC | AREA, AREA, BY_BOTH | BY(NO_SUCH_PROCESS) | BY(ALREADY_IN_STATE) },
    [KILL] = { "kill", DISC | AREA, AREA, BY_BOTH | BY(NO_SUCH_PROCESS) },
    [SHARE] = { "share", DISC | AREA, AREA, BY_BOTH | BY(NO_SUCH_PROCESS) | BY(BAD_SHARE) },
    [LIST] = { "list", DISC | AREA | OUT, OUT, BY_BOTH | BY(SHORT_OUTPUT) },
    [TURN] = { "turn", DISC | AREA | OUT, DISC | AREA | OUT, BY_BOTH | BY(SHORT_OUTPUT) | BY(NOT_RUNNING) },
    [ROUND] = { "round", DISC | AREA | OUT, DISC | AREA | OUT, BY_BOTH | BY(SHORT_OUTPUT) },
};

size_t disc_size = ARDUINOS_DISC_SIZE;

size_t data_size(void)
{
    return disc_size == ARDUINOS_DISC_SIZE ? ARDUINOS_MAX_DATA : ARDUINOS_LONG_MAX_DATA;
}

unsigned long calls_made;
unsigned long tests_failed;

/* Bit 0: done at least once. Bit n: refused by n. */
static unsigned reached[OPERATION_COUNT];

/* The passes over one call. Refused calls are made once more with nothing that may be written. */
enum pass { END, BEGIN, REFUSED_AGAIN };
static const char *const pass_names[] = { "buffers end at a page", "buffers begin after a page", "nothing writable" };

/* What a message about a failed test or a touch names. */
static const struct call *current;
static enum pass current_pass;

static struct guarded buffers[BUFFER_COUNT];
enum { DISC_AT, AREA_AT, NAME_AT, DATA_AT, OUT_AT };

struct call call_of(enum operation operation)
{
    static const size_t output[OPERATION_COUNT] = {
        [FILES] = ARDUINOS_FILES_OUTPUT, [LIST] = ARDUINOS_LIST_OUTPUT,
        [TURN] = ARDUINOS_TURN_OUTPUT,   [ROUND] = ARDUINOS_ROUND_OUTPUT,
    };
    static const uint8_t nothing[1];
    struct call call = { .operation = operation, .disc_length = disc_size, .area_length = ARDUINOS_AREA_SIZE };

    call.out_length = operation == RETRIEVE ? data_size() : output[operation];
    call.name = call.data = nothing;
    return call;
}

void fail(const char *what)
{
    tests_failed++;
    if (current == NULL)
        printf("guard: %s\n", what);
    else
        printf("guard: call %lu, %s, slot %lu, %s: %s\n", calls_made, operations[current->operation].name,
               (unsigned long)current->slot, pass_names[current_pass], what);
}

static void lay_all(const struct call *call, const struct state *state, enum side side)
{
    guarded_lay(&buffers[DISC_AT], side, state->disc, call->disc_length);
    guarded_lay(&buffers[AREA_AT], side, state->area, call->area_length);
    guarded_lay(&buffers[NAME_AT], side, call->name, call->name_length);
    guarded_lay(&buffers[DATA_AT], side, call->data, call->data_length);
    guarded_lay(&buffers[OUT_AT], side, state->out, call->out_length);
}

#define LENT(buffer) (buffer)->bytes, (buffer)->length

static int32_t make(const struct call *call)
{
    struct guarded *disc = &buffers[DISC_AT], *area = &buffers[AREA_AT], *out = &buffers[OUT_AT];
    struct guarded *name = &buffers[NAME_AT], *data = &buffers[DATA_AT];

    switch (call->operation) {
    case FORMAT: return arduinos_format(LENT(disc), LENT(area));
    case BOOT: return arduinos_boot(LENT(area));
    case STORE: return arduinos_store(LENT(disc), LENT(name), LENT(data));
    case RETRIEVE: return arduinos_retrieve(LENT(disc), LENT(name), LENT(out));
    case ERASE: return arduinos_erase(LENT(disc), LENT(area), LENT(name));
    case FILES: return arduinos_files(LENT(disc), LENT(out));
    case FREE_SPACE: return arduinos_free_space(LENT(disc));
    case RUN: return arduinos_run(LENT(disc), LENT(area), LENT(name));
    case SUSPEND: return arduinos_suspend(LENT(disc), LENT(area), call->id);
    case RESUME: return arduinos_resume(LENT(disc), LENT(area), call->id);
    case KILL: return arduinos_kill(LENT(disc), LENT(area), call->id);
    case SHARE: return arduinos_share(LENT(disc), LENT(area), call->id, call->share);
    case LIST: return arduinos_list(LENT(disc), LENT(area), LENT(out));
    case TURN: return arduinos_turn(LENT(disc), LENT(area), call->slot, call->clock, LENT(out));
    case ROUND: return arduinos_round(LENT(disc), LENT(area), call->clock, LENT(out));
    default: return 0;
    }
}

/* Makes the call with every buffer read-only that is not among the writable ones, lent or not. */
static int32_t make_protected(const struct call *call, unsigned writable)
{
    for (unsigned i = 0; i < BUFFER_COUNT; i++)
        if (!(writable & 1u << i))
            guarded_forbid_writes(&buffers[i]);
    int32_t number = make(call);
    calls_made++;
    for (unsigned i = 0; i < BUFFER_COUNT; i++)
        guarded_allow_writes(&buffers[i]);
    return number;
}

static bool same(const struct guarded *buffer, const uint8_t *bytes)
{
    return memcmp(buffer->bytes, bytes, buffer->length) == 0;
}

/* What must hold of the buffers after a call, whatever it does. */
static void test_buffers(const struct state *before, int32_t number, unsigned changed)
{
    size_t printed = number < 0 ? 0 : (size_t)number;
    const struct guarded *out = &buffers[OUT_AT];

    for (unsigned i = 0; i < BUFFER_COUNT; i++)
        if (!guarded_rest_kept(&buffers[i]))
            fail("bytes beside a buffer were written");
    if ((number < 0 || !(changed & DISC)) && !same(&buffers[DISC_AT], before->disc))
        fail("the disc was changed");
    if ((number < 0 || !(changed & AREA)) && !same(&buffers[AREA_AT], before->area))
        fail("the work area was changed");
    if ((number < 0 || !(changed & OUT)) && !same(out, before->out))
        fail("the output was changed");
    if (changed & OUT && printed > out->length)
        fail("more was printed than was lent");
    else if (changed & OUT && memcmp(out->bytes + printed, before->out + printed, out->length - printed) != 0)
        fail("output beyond the number was changed");
}

static int32_t one_pass(const struct call *call, const struct state *state, enum pass pass)
{
    const struct operation_facts *facts = &operations[call->operation];

    current_pass = pass;
    lay_all(call, state, pass == BEGIN ? BEGINS_AFTER_PAGE : ENDS_AT_PAGE);
    int32_t number = make_protected(call, pass == REFUSED_AGAIN ? 0 : facts->changed);
    test_buffers(state, number, facts->changed);
    return number;
}

/* The state that the buffers hold now. */
static void take_over(struct state *state)
{
    memcpy(state->disc, buffers[DISC_AT].bytes, buffers[DISC_AT].length);
    memcpy(state->area, buffers[AREA_AT].bytes, buffers[AREA_AT].length);
    memcpy(state->out, buffers[OUT_AT].bytes, buffers[OUT_AT].length);
}

int32_t call_guarded(const struct call *call, struct state *state)
{
    struct state after_end = *state;

    current = call;
    int32_t number = one_pass(call, state, END);
    take_over(&after_end);
    if (one_pass(call, state, BEGIN) != number)
        fail("another number than on the other side");
    if (!same(&buffers[DISC_AT], after_end.disc) || !same(&buffers[AREA_AT], after_end.area) ||
        !same(&buffers[OUT_AT], after_end.out))
        fail("other bytes than on the other side");
    if (number < 0 && one_pass(call, state, REFUSED_AGAIN) != number)
        fail("another number when nothing may be written");
    if (number < ARDUINOS_BAD_SHARE)
        fail("a number that is no refusal");
    else
        reached[call->operation] |= 1u << (number < 0 ? -number : 0);
    *state = after_end;
    current = NULL;
    return number;
}

void test_reached(void)
{
    for (int i = 0; i < OPERATION_COUNT; i++) {
        unsigned found = reached[i];
        reached[i] = 0;
        if (found == (operations[i].refusals | 1u))
            continue;
        tests_failed++;
        printf("guard: disc of %lu, %s: reached %#x and not %#x\n", (unsigned long)disc_size, operations[i].name, found,
               operations[i].refusals | 1u);
    }
}

static void say(const char *text)
{
    if (write(STDOUT_FILENO, text, strlen(text)) < 0)
        return;
}

/* Returns into the instruction that touched, which then ends the program: the handler is in place only once. */
static void told(int signal_number)
{
    (void)signal_number;
    say("guard: a byte outside a buffer, or of one that is only read, was touched");
    if (current != NULL) {
        say(" in ");
        say(operations[current->operation].name);
        say(", ");
        say(pass_names[current_pass]);
    }
    say("\n");
}

void prepare_guard(void)
{
    struct sigaction action;

    memset(&action, 0, sizeof action);
    action.sa_handler = told;
    action.sa_flags = (int)SA_RESETHAND;
    sigemptyset(&action.sa_mask);
    sigaction(SIGSEGV, &action, NULL);
    sigaction(SIGBUS, &action, NULL);
    for (unsigned i = 0; i < BUFFER_COUNT; i++)
        guarded_map(&buffers[i]);
}
