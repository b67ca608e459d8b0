/* Calls of every function, drawn from a fixed seed. After every 1,000 it prints a digest of all numbers and all bytes of the buffers so
 * far: linked with the library for x86-64 and for any other machine it must print the same.
 *
 * WALK_CALLS    how many calls
 * WALK_ODD      how far disc, work area and output lie off a multiple of 8
 */
#include "arduinos.h"
#include "machine.h"

#ifndef WALK_CALLS
#define WALK_CALLS 30000
#endif
#ifndef WALK_ODD
#define WALK_ODD 1
#endif
#define MOST_DISC ARDUINOS_LONG_DISC_SIZE
#define MOST_OUT ARDUINOS_LONG_MAX_DATA
#define REFUSALS 23
#define FAULTS 32

static uint8_t disc_room[MOST_DISC + 8] __attribute__((aligned(8)));
static uint8_t area_room[ARDUINOS_AREA_SIZE + 8] __attribute__((aligned(8)));
static uint8_t out_room[MOST_OUT + 8] __attribute__((aligned(8)));
static uint8_t *const disc = disc_room + WALK_ODD, *const area = area_room + WALK_ODD, *const out = out_room + WALK_ODD;
static uint8_t data[256];
static size_t disc_length = ARDUINOS_DISC_SIZE;
#define AREA area, ARDUINOS_AREA_SIZE
#define DISC disc, disc_length

static uint32_t seed = 1, digest = 2166136261u, refused[REFUSALS], faults[FAULTS];

/* A number below n; all chance is drawn ahead of a call, since C leaves the order of arguments open. */
static uint32_t below(uint32_t n)
{
    seed ^= seed << 13;
    seed ^= seed >> 17;
    seed ^= seed << 5;
    return (seed >> 8) % n;
}
static void mix(const uint8_t *from, size_t n)
{
    while (n--) digest = (digest ^ *from++) * 16777619u;
}

/* FLOATs at the edges of binary32, highest byte first: zeros, ones, the least and the largest of either kind, infinities, a NaN, halves
 * that round to even. */
static const uint32_t edges[] = {
    0x00000000, 0x80000000, 0x00000001, 0x807fffff, 0x00800000, 0x3f800000, 0xbf800000, 0x7f7fffff, 0xff7fffff, 0x7f800000, 0xff800000,
    0x7fc00000, 0x3f000000, 0x4b7fffff, 0x4b800001, 0x46fffe00, 0x47000000, 0xc7000000, 0x3eaaaaab, 0x40490fdb, 0x33800000, 0x34000000
};
static uint8_t letter(uint32_t of)
{
    return (uint8_t)('a' + below(of));
}
static void add(size_t *n, uint8_t byte)
{
    data[(*n)++] = byte;
}
static void add_number(size_t *n)
{
    uint32_t kind = below(8), edge = edges[below(sizeof edges / sizeof *edges)], small = below(3);
    if (kind < 3) {
        add(n, 1);
        add(n, (uint8_t)(small ? below(6) : below(256)));
    } else if (kind < 6) {
        add(n, 2);
        add(n, (uint8_t)(small ? 0 : below(256)));
        add(n, (uint8_t)below(small == 1 ? 5 : 256));
    } else {
        add(n, 4);
        for (int i = 0; i < 4; i++) {
            uint8_t any = (uint8_t)below(256);
            add(n, small ? (uint8_t)(edge >> (24 - 8 * i)) : any);
        }
    }
}
static void add_string(size_t *n, uint32_t most, uint32_t of)
{
    add(n, 3);
    for (uint32_t k = 1 + below(most); k > 0; k--) add(n, letter(of));
    add(n, 0);
}
/* Operands and what takes them, so that most programs run on; now and then any byte. */
static void add_statement(size_t *n)
{
    static const uint8_t unary[] = { 7, 8, 14, 24, 28, 29, 30, 31, 32, 33, 34, 37, 41, 42 };
    uint32_t last = 51 + below(2);
    switch (below(14)) {
    case 0:
        for (uint32_t k = below(3) ? 1 : 12; k > 0; k--) {
            if (below(3)) add_number(n);
            else add_string(n, 4, 4);
            add(n, 5);
            add(n, letter(below(3) ? 26 : 3));
        }
        return;
    case 1:
        add(n, 6);
        add(n, letter(below(4) ? 3 : 26));
        break;
    case 2:
        add_number(n);
        add(n, unary[below(sizeof unary)]);
        break;
    case 3: /* a quotient or a rest, often by zero */
        add_number(n);
        add(n, (uint8_t)(1 + below(2)));
        if (data[*n - 1] == 2) add(n, 0);
        add(n, (uint8_t)below(3));
        add(n, (uint8_t)(12 + below(2)));
        break;
    case 4: case 5:
        add_number(n);
        add_number(n);
        add(n, (uint8_t)(below(5) ? 9 + below(19) : 35 + below(2)));
        break;
    case 6:
        for (int i = 0; i < 3; i++) add_number(n);
        add(n, 38);
        break;
    case 7:
        for (int i = 0; i < 5; i++) add_number(n);
        add(n, 39);
        break;
    case 8:
        add_number(n);
        add(n, 1);
        add(n, (uint8_t)below(17));
        add(n, 40);
        break;
    case 9:
        add_string(n, 1, 12);
        add(n, 2);
        add(n, 0);
        add(n, (uint8_t)below(below(2) ? 40 : 5));
        add(n, 53);
        if (below(2)) {
            for (uint32_t k = 1 + below(3); k > 0; k--) {
                add_number(n);
                add(n, 55);
            }
            return;
        }
        add(n, (uint8_t)(56 + below(4)));
        break;
    case 10: /* FORK, and half of them wait for the child */
        add_string(n, 1, 12);
        add(n, 68);
        if (below(2)) {
            add(n, 69);
            return;
        }
        break;
    case 11:
        add(n, 45);
        add(n, 1);
        add(n, (uint8_t)below(60));
        add(n, 9);
        add(n, 44);
        return;
    case 12: /* IF or ELSE over one byte, seldom over more than there are, and WHILE 0 */
        add_number(n);
        add(n, (uint8_t)(60 + below(2)));
        add(n, below(6) ? 1 : 200);
        add(n, 54);
        add(n, 62);
        if (below(2)) return;
        add(n, 1);
        add(n, 0);
        add(n, 63);
        add(n, 2);
        add(n, 1);
        add(n, 54);
        add(n, 64);
        return;
    default: /* any byte, or more than the stack holds */
        if (below(2)) add(n, (uint8_t)(1 + below(72)));
        else if (below(4) == 0)
            for (int i = 0; i < 17; i++) add_number(n);
        return;
    }
    add(n, (uint8_t)last);
}
static size_t program(void)
{
    size_t n = 0, want = 1 + below(60);
    int loops = below(4) != 0;
    if (loops) add(&n, 65);
    while (n < want) add_statement(&n);
    if (loops) add(&n, 66);
    else if (below(2)) add(&n, 67);
    return n;
}
static void count_faults(void)
{
    for (int i = 0; i < ARDUINOS_MAX_PROCESSES; i++) {
        const uint8_t *record = area + ARDUINOS_RECORD(i);
        if (record[ARDUINOS_RECORD_STATE] == ARDUINOS_STATE_ENDED && record[ARDUINOS_RECORD_FAULT] < FAULTS)
            faults[record[ARDUINOS_RECORD_FAULT]]++;
    }
}
/* One byte is damaged, a round tried, and the byte put back if it was refused. */
static int32_t damaged(uint32_t clock)
{
    uint8_t *at = below(2) ? disc + below(161) : area + below(ARDUINOS_AREA_SIZE), was = *at;
    int32_t number;
    *at = (uint8_t)below(256);
    number = arduinos_round(DISC, AREA, clock, out, MOST_OUT);
    if (number < 0) *at = was;
    return number;
}
static int32_t call(uint32_t clock)
{
    const uint8_t *any = (const uint8_t *)"x";
    uint8_t name[2];
    size_t name_length = 1, length = 0, some = MOST_OUT;
    uint32_t which = below(44), id = below(40), share = below(10), slot = below(11), rare = below(10);
    name[0] = letter(12);
    name[1] = (uint8_t)(rare ? 'a' : ' ');
    if (rare == 0) name_length = below(3);
    if (which >= 3 && which <= 6) length = rare == 1 ? 0 : program();
    if (below(4) == 0) some = below(100);
    if (below(100) == 0) return arduinos_round(disc, disc_length - 1, AREA, clock, out, MOST_OUT);
    switch (which) {
    case 0:
        if (rare) return arduinos_free_space(DISC);
        disc_length = below(2) ? ARDUINOS_DISC_SIZE : MOST_DISC;
        return arduinos_format(DISC, AREA);
    case 1:
        return arduinos_files(DISC, out, some);
    case 2: /* a long file of what was printed last, which fills the disc */
        return arduinos_store(DISC, name, name_length, out, rare < 5 ? 100 + 10 * rare : MOST_OUT);
    case 3: case 4: case 5: case 6:
        return arduinos_store(DISC, name, name_length, length ? data : any, length);
    case 7:
        return arduinos_retrieve(DISC, name, name_length, out, some);
    case 8: case 9:
        return arduinos_erase(DISC, AREA, name, name_length);
    case 10: case 11: case 12: case 13:
        return arduinos_run(DISC, AREA, name, name_length);
    case 14:
        return arduinos_suspend(DISC, AREA, id);
    case 15:
        return arduinos_resume(DISC, AREA, id);
    case 16:
        return rare < 7 ? arduinos_share(DISC, AREA, id, share) : arduinos_kill(DISC, AREA, id);
    case 17:
        return arduinos_list(DISC, AREA, out, some);
    case 18:
        return damaged(clock);
    case 19:
        if (rare < 2) return arduinos_boot(AREA);
        return arduinos_turn(DISC, AREA, slot, clock, out, some);
    default:
        if (rare < 5) return arduinos_turn(DISC, AREA, slot, clock, out, MOST_OUT);
        return arduinos_round(DISC, AREA, clock, out, MOST_OUT);
    }
}
static void row(const char *what, const uint32_t *counts, int n)
{
    put_text(what);
    for (int i = 0; i < n; i++) {
        put_text(" ");
        put_number((int32_t)counts[i]);
    }
    put_text("\n");
}
int main(void)
{
    uint32_t clock = 0;
    arduinos_format(DISC, AREA);
    for (int32_t i = 1; i <= WALK_CALLS; i++) {
        uint8_t number_bytes[4];
        int32_t number;
        clock += below(20);
        number = call(clock);
        for (int k = 0; k < 4; k++) number_bytes[k] = (uint8_t)((uint32_t)number >> 8 * k);
        refused[number < 0 && -number < REFUSALS ? -number : 0]++;
        count_faults();
        mix(number_bytes, 4);
        mix(DISC);
        mix(AREA);
        if (number > 0) mix(out, (size_t)number < MOST_OUT ? (size_t)number : MOST_OUT);
        if (i % 1000 == 0) {
            put_number(i);
            put_text(" ");
            put_hex(digest);
            put_text("\n");
        }
    }
    row("refusals", refused, REFUSALS);
    row("faults", faults, FAULTS);
    return 0;
}
