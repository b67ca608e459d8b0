/*
 * Broken promises to try the guard with. The linker's --wrap puts these functions in front of the archive's, and the
 * word in PLANTED chooses the promise that is broken.
 */
#include "arduinos.h"

#include <stdbool.h>
#include <stdlib.h>
#include <string.h>

int32_t __real_arduinos_list(const uint8_t *, size_t, const uint8_t *, size_t, uint8_t *, size_t);
int32_t __real_arduinos_run(const uint8_t *, size_t, uint8_t *, size_t, const uint8_t *, size_t);
int32_t __real_arduinos_share(const uint8_t *, size_t, uint8_t *, size_t, uint32_t, uint32_t);
int32_t __real_arduinos_turn(uint8_t *, size_t, uint8_t *, size_t, uint32_t, uint32_t, uint8_t *, size_t);
int32_t __real_arduinos_round(uint8_t *, size_t, uint8_t *, size_t, uint32_t, uint8_t *, size_t);
int32_t __wrap_arduinos_list(const uint8_t *, size_t, const uint8_t *, size_t, uint8_t *, size_t);
int32_t __wrap_arduinos_run(const uint8_t *, size_t, uint8_t *, size_t, const uint8_t *, size_t);
int32_t __wrap_arduinos_share(const uint8_t *, size_t, uint8_t *, size_t, uint32_t, uint32_t);
int32_t __wrap_arduinos_turn(uint8_t *, size_t, uint8_t *, size_t, uint32_t, uint32_t, uint8_t *, size_t);
int32_t __wrap_arduinos_round(uint8_t *, size_t, uint8_t *, size_t, uint32_t, uint8_t *, size_t);

static bool planted(const char *word)
{
    const char *chosen = getenv("PLANTED");
    return chosen != NULL && strcmp(chosen, word) == 0;
}

static void read_byte(const volatile uint8_t *byte)
{
    (void)*byte;
}

/* Writes what is there already: no byte changes, but it is a write. */
static void write_same(volatile uint8_t *byte)
{
    *byte = *byte;
}

int32_t __wrap_arduinos_list(const uint8_t *disc, size_t disc_len, const uint8_t *area, size_t area_len, uint8_t *out,
                             size_t out_len)
{
    int32_t number = __real_arduinos_list(disc, disc_len, area, area_len, out, out_len);
    if (number > 0 && planted("const-written"))
        write_same((uint8_t *)(uintptr_t)area);
    if (number > 0 && planted("output-beyond") && (size_t)number < out_len)
        out[number] ^= 1;
    return number;
}

int32_t __wrap_arduinos_run(const uint8_t *disc, size_t disc_len, uint8_t *area, size_t area_len, const uint8_t *name,
                            size_t name_len)
{
    int32_t number = __real_arduinos_run(disc, disc_len, area, area_len, name, name_len);
    if (name_len == 0 && planted("empty-read"))
        read_byte(name);
    if (number < 0 && area_len > 0 && planted("refused-written"))
        write_same(area);
    return number;
}

int32_t __wrap_arduinos_share(const uint8_t *disc, size_t disc_len, uint8_t *area, size_t area_len, uint32_t id,
                              uint32_t share)
{
    int32_t number = __real_arduinos_share(disc, disc_len, area, area_len, id, share);
    if (number == 0 && planted("share-beside"))
        area[ARDUINOS_RECORD(ARDUINOS_MAX_PROCESSES - 1) + ARDUINOS_RECORD_SHARE] ^= 1;
    if (number == ARDUINOS_BAD_SHARE && planted("share-refused"))
        write_same(area + ARDUINOS_RECORD(0) + ARDUINOS_RECORD_SHARE);
    return number;
}

int32_t __wrap_arduinos_turn(uint8_t *disc, size_t disc_len, uint8_t *area, size_t area_len, uint32_t slot,
                             uint32_t clock, uint8_t *out, size_t out_len)
{
    int32_t number = __real_arduinos_turn(disc, disc_len, area, area_len, slot, clock, out, out_len);
    if (number >= 0 && planted("end-read"))
        read_byte(area + area_len);
    if (number >= 0 && planted("begin-read"))
        read_byte(disc - 1);
    if (number >= 0 && planted("end-written"))
        write_same(out + out_len);
    return number;
}

/* round-less: a byte less than it needs is enough. */
int32_t __wrap_arduinos_round(uint8_t *disc, size_t disc_len, uint8_t *area, size_t area_len, uint32_t clock,
                              uint8_t *out, size_t out_len)
{
    uint8_t enough[ARDUINOS_ROUND_OUTPUT];

    if (out_len != sizeof enough - 1 || !planted("round-less"))
        return __real_arduinos_round(disc, disc_len, area, area_len, clock, out, out_len);
    int32_t number = __real_arduinos_round(disc, disc_len, area, area_len, clock, enough, sizeof enough);
    if (number > 0)
        memcpy(out, enough, (size_t)number);
    return number;
}
