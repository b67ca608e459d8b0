/*
 * The programs of docs/GUIDE.md, run as the guide runs them: its blocks of C are compiled here, the round loop and the
 * shares among them, and its blocks of output, joined, are what this program prints. c/run cuts both out of the guide.
 */
#include "arduinos.h"

#include <stdbool.h>
#include <stdio.h>
#include <string.h>

static uint8_t disc[ARDUINOS_DISC_SIZE];
static uint8_t area[ARDUINOS_AREA_SIZE];

/* ---- What the guide's round loop calls ---- */

static uint8_t cells[ARDUINOS_DISC_SIZE];

static uint8_t eeprom_read(size_t at)
{
    return cells[at];
}

static void eeprom_write(size_t at, uint8_t byte)
{
    cells[at] = byte;
}

/* What was sent since the line was last emptied. */
static uint8_t line[ARDUINOS_ROUND_OUTPUT];
static size_t line_length;

static void serial_write(const uint8_t *bytes, int32_t count)
{
    memcpy(line + line_length, bytes, (size_t)count);
    line_length += (size_t)count;
}

static void report_refusal(int32_t number)
{
    printf("refused: %ld\n", (long)number);
}

#include "guide_text.h"

/* ---- A round ---- */

#define STEP_MS 100u

static unsigned long round_number;

/* All that a round may change. */
struct box {
    uint8_t disc[sizeof disc], area[sizeof area], cells[sizeof cells], line[sizeof line];
    size_t line_length;
};

static void take(struct box *box)
{
    memcpy(box->disc, disc, sizeof disc);
    memcpy(box->area, area, sizeof area);
    memcpy(box->cells, cells, sizeof cells);
    memcpy(box->line, line, sizeof line);
    box->line_length = line_length;
}

static void put(const struct box *box)
{
    memcpy(disc, box->disc, sizeof disc);
    memcpy(area, box->area, sizeof area);
    memcpy(cells, box->cells, sizeof cells);
    memcpy(line, box->line, sizeof line);
    line_length = box->line_length;
}

static bool same(const struct box *box)
{
    return memcmp(disc, box->disc, sizeof disc) == 0 && memcmp(area, box->area, sizeof area) == 0 &&
           memcmp(cells, box->cells, sizeof cells) == 0 && line_length == box->line_length &&
           memcmp(line, box->line, line_length) == 0;
}

/* The next round, the clock being 100 ms times its number: by its turns, and whole from the same buffers. */
static void next_round(void)
{
    static struct box before, by_turns;
    uint32_t now = STEP_MS * (uint32_t)++round_number;

    line_length = 0;
    take(&before);
    round_by_turns(now);
    take(&by_turns);
    put(&before);
    one_round(now);
    if (!same(&by_turns))
        printf("round %lu is not its turns\n", round_number);
    if (line_length > 0)
        printf("round %lu: %.*s", round_number, (int)line_length, (const char *)line);
}

/* ---- The examples ---- */

static const uint8_t *bytes_of(const char *text)
{
    return (const uint8_t *)text;
}

static void store(const char *name, const uint8_t *data, size_t length)
{
    int32_t number = arduinos_store(disc, sizeof disc, bytes_of(name), strlen(name), data, length);
    if (number < 0)
        report_refusal(number);
    save_disc();
}

static int32_t run(const char *name)
{
    int32_t id = arduinos_run(disc, sizeof disc, area, sizeof area, bytes_of(name), strlen(name));
    if (id < 0)
        report_refusal(id);
    return id;
}

static int32_t run_with_share(const char *name, uint32_t turns)
{
    int32_t id = run(name);
    int32_t number = arduinos_share(disc, sizeof disc, area, sizeof area, (uint32_t)id, turns);
    if (number < 0)
        report_refusal(number);
    return id;
}

static const uint8_t *record_of(int slot)
{
    return area + ARDUINOS_RECORD(slot);
}

static bool lives(int slot)
{
    return record_of(slot)[ARDUINOS_RECORD_STATE] != ARDUINOS_STATE_ENDED;
}

/* Rounds until the process in slot 0 ends or is killed. */
static void follow(const char *title, int32_t id, unsigned long most)
{
    printf("%s\n", title);
    round_number = 0;
    while (lives(0) && round_number < most)
        next_round();
    if (!lives(0))
        printf("ended in round %lu, fault %u\n", round_number, record_of(0)[ARDUINOS_RECORD_FAULT]);
    else if (arduinos_kill(disc, sizeof disc, area, sizeof area, (uint32_t)id) == 0)
        printf("killed after round %lu, fault %u\n", most, record_of(0)[ARDUINOS_RECORD_FAULT]);
}

static void example(const char *name, unsigned long most)
{
    follow(name, run(name), most);
}

/* Rounds until the processes in slots 0 and 1 have ended. */
static void follow_two(const char *title)
{
    printf("%s\n", title);
    round_number = 0;
    while (lives(0) || lives(1)) {
        bool lived[2] = { lives(0), lives(1) };
        next_round();
        for (int slot = 0; slot < 2; slot++)
            if (lived[slot] && !lives(slot))
                printf("slot %d ended in round %lu, fault %u\n", slot, round_number,
                       record_of(slot)[ARDUINOS_RECORD_FAULT]);
    }
}

static void print_bytes(const char *name)
{
    uint8_t out[ARDUINOS_MAX_DATA];
    int32_t length = arduinos_retrieve(disc, sizeof disc, bytes_of(name), strlen(name), out, sizeof out);

    printf("file %s:", name);
    for (int32_t i = 0; i < length; i++)
        printf(" %u", out[i]);
    putchar('\n');
}

/* An empty box: a new EEPROM, which power-up formats. */
static void new_box(void)
{
    memset(cells, 0xFF, sizeof cells);
    power_up();
}

int main(void)
{
    static const uint8_t zeros[2];

    new_box();
    store("hours", hours, sizeof hours);
    example("hours", 72050);
    follow("hours with a share of 8", start_hours(), 72050);

    new_box();
    store("lamp", lamp, sizeof lamp);
    example("lamp", 45);
    follow("lamp with a share of 8", run_with_share("lamp", 8), 45);

    new_box();
    store("load", load, sizeof load);
    example("load", 100);

    new_box();
    store("down", down, sizeof down);
    example("down", 100);
    run_with_share("down", 8);
    run("down");
    follow_two("down with a share of 8, and down");

    new_box();
    store("logger", logger, sizeof logger);
    store("reader", reader, sizeof reader);
    example("logger", 100);
    print_bytes("log");
    example("reader", 100);

    new_box();
    store("down", down, sizeof down);
    store("starter", starter, sizeof starter);
    example("starter", 100);
    arduinos_erase(disc, sizeof disc, area, sizeof area, bytes_of("down"), 4);
    example("starter", 100);

    new_box();
    store("count", zeros, sizeof zeros);
    store("powerups", powerups, sizeof powerups);
    example("powerups", 100);
    power_up();
    example("powerups", 100);
    print_bytes("count");
    return 0;
}
