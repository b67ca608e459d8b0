/*
 * The header from C99: every function through a pointer whose type is written out here, so that a changed parameter is
 * noticed, and linked with the archive. Runs a few calls.
 */
#include "arduinos.h"

#include <stdio.h>

#if ARDUINOS_VERSION < 8
#error "the version can be asked in #if"
#endif

typedef uint8_t byte;

static struct {
    int32_t (*format)(byte *, size_t, byte *, size_t);
    int32_t (*boot)(byte *, size_t);
    int32_t (*store)(byte *, size_t, const byte *, size_t, const byte *, size_t);
    int32_t (*retrieve)(const byte *, size_t, const byte *, size_t, byte *, size_t);
    int32_t (*erase)(byte *, size_t, const byte *, size_t, const byte *, size_t);
    int32_t (*files)(const byte *, size_t, byte *, size_t);
    int32_t (*free_space)(const byte *, size_t);
    int32_t (*run)(const byte *, size_t, byte *, size_t, const byte *, size_t);
    int32_t (*suspend)(const byte *, size_t, byte *, size_t, uint32_t);
    int32_t (*resume)(const byte *, size_t, byte *, size_t, uint32_t);
    int32_t (*kill)(const byte *, size_t, byte *, size_t, uint32_t);
    int32_t (*share)(const byte *, size_t, byte *, size_t, uint32_t, uint32_t);
    int32_t (*list)(const byte *, size_t, const byte *, size_t, byte *, size_t);
    int32_t (*turn)(byte *, size_t, byte *, size_t, uint32_t, uint32_t, byte *, size_t);
    int32_t (*round)(byte *, size_t, byte *, size_t, uint32_t, byte *, size_t);
} volatile const kernel = {
    arduinos_format,     arduinos_boot, arduinos_store,   arduinos_retrieve, arduinos_erase, arduinos_files,
    arduinos_free_space, arduinos_run,  arduinos_suspend, arduinos_resume,   arduinos_kill,  arduinos_share,
    arduinos_list,       arduinos_turn, arduinos_round
};

static byte disc[ARDUINOS_DISC_SIZE], area[ARDUINOS_AREA_SIZE], out[ARDUINOS_ROUND_OUTPUT];

int main(void)
{
    static const byte name[] = { 'p' }, stop[] = { 67 };

    if (kernel.format(disc, sizeof disc, area, sizeof area) != 0 ||
        kernel.store(disc, sizeof disc, name, sizeof name, stop, sizeof stop) != 0 ||
        kernel.run(disc, sizeof disc, area, sizeof area, name, sizeof name) != 1 ||
        kernel.erase(disc, sizeof disc, area, sizeof area, name, sizeof name) != ARDUINOS_FILE_IN_USE ||
        kernel.share(disc, sizeof disc, area, sizeof area, 1, ARDUINOS_MAX_SHARE + 1) != ARDUINOS_BAD_SHARE ||
        kernel.share(disc, sizeof disc, area, sizeof area, 1, ARDUINOS_MAX_SHARE) != 0 ||
        area[ARDUINOS_RECORD(0) + ARDUINOS_RECORD_SHARE] != ARDUINOS_MAX_SHARE ||
        kernel.round(disc, sizeof disc, area, sizeof area, 0, out, sizeof out) != 0 ||
        kernel.free_space(disc, sizeof disc) != ARDUINOS_MAX_DATA - 1) {
        puts("header: a call gave another number, or a share is elsewhere");
        return 1;
    }
    return 0;
}
