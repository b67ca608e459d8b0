/* Document 01's program bench from C: what it prints is crates/bench/stdout, in 29 rounds. */
#include "arduinos.h"
#include "machine.h"

static const uint8_t down[20] = { 2, 0, 3, 5, 'n', 6, 'n', 63, 2, 8, 6, 'n', 52, 6, 'n', 8, 5, 'n', 64, 67 };
static uint8_t disc[ARDUINOS_DISC_SIZE], area[ARDUINOS_AREA_SIZE], out[ARDUINOS_ROUND_OUTPUT];

static int runs(void)
{
    for (int i = 0; i < ARDUINOS_MAX_PROCESSES; i++)
        if (area[ARDUINOS_RECORD(i) + ARDUINOS_RECORD_STATE] == 'r') return 1;
    return 0;
}
static int done(int32_t number)
{
    if (number >= 0) return 1;
    put_text("refused ");
    put_number(number);
    put_text("\n");
    return 0;
}
int main(void)
{
    int32_t n, rounds = 0;
    const uint8_t *name = (const uint8_t *)"down";
    if (!done(arduinos_format(disc, sizeof disc, area, sizeof area))) return 1;
    if (!done(arduinos_store(disc, sizeof disc, name, 4, down, sizeof down))) return 1;
    if (!done(n = arduinos_files(disc, sizeof disc, out, sizeof out))) return 1;
    put(out, (size_t)n);
    if (!done(arduinos_run(disc, sizeof disc, area, sizeof area, name, 4))) return 1;
    if (!done(n = arduinos_list(disc, sizeof disc, area, sizeof area, out, sizeof out))) return 1;
    put(out, (size_t)n);
    while (runs() && rounds < 1000) {
        if (!done(n = arduinos_round(disc, sizeof disc, area, sizeof area, 0, out, sizeof out))) return 1;
        put(out, (size_t)n);
        rounds++;
    }
    put_number(arduinos_free_space(disc, sizeof disc));
    put_text("\n");
    if (rounds == 29) return 0;
    put_text("rounds ");
    put_number(rounds);
    put_text("\n");
    return 1;
}
