/* arduinos.h on a machine whose size_t has 32 bits: each function widens the lengths and calls the kernel's own, whose lengths have 64.
 *
 * The kernel's LLVM module is linked into this file's (tools/ports/cross), its functions renamed from arduinos_ to arduinos64_. A length
 * here cannot be above 2^32 - 1, so a widened one is the caller's, and nothing is cut.
 */
#include "arduinos.h"

#ifdef __wasm__
#define EXPORT __attribute__((visibility("default"), used))
#else
#define EXPORT
#endif

typedef uint64_t wide;

int32_t arduinos64_format(uint8_t *, wide, uint8_t *, wide);
int32_t arduinos64_boot(uint8_t *, wide);
int32_t arduinos64_store(uint8_t *, wide, const uint8_t *, wide, const uint8_t *, wide);
int32_t arduinos64_retrieve(const uint8_t *, wide, const uint8_t *, wide, uint8_t *, wide);
int32_t arduinos64_erase(uint8_t *, wide, const uint8_t *, wide, const uint8_t *, wide);
int32_t arduinos64_files(const uint8_t *, wide, uint8_t *, wide);
int32_t arduinos64_free_space(const uint8_t *, wide);
int32_t arduinos64_run(const uint8_t *, wide, uint8_t *, wide, const uint8_t *, wide);
int32_t arduinos64_suspend(const uint8_t *, wide, uint8_t *, wide, uint32_t);
int32_t arduinos64_resume(const uint8_t *, wide, uint8_t *, wide, uint32_t);
int32_t arduinos64_kill(const uint8_t *, wide, uint8_t *, wide, uint32_t);
int32_t arduinos64_share(const uint8_t *, wide, uint8_t *, wide, uint32_t, uint32_t);
int32_t arduinos64_list(const uint8_t *, wide, const uint8_t *, wide, uint8_t *, wide);
int32_t arduinos64_turn(uint8_t *, wide, uint8_t *, wide, uint32_t, uint32_t, uint8_t *, wide);
int32_t arduinos64_round(uint8_t *, wide, uint8_t *, wide, uint32_t, uint8_t *, wide);

EXPORT int32_t arduinos_format(uint8_t *disc, size_t disc_length, uint8_t *area, size_t area_length)
{
    return arduinos64_format(disc, disc_length, area, area_length);
}
EXPORT int32_t arduinos_boot(uint8_t *area, size_t area_length)
{
    return arduinos64_boot(area, area_length);
}
EXPORT int32_t arduinos_store(uint8_t *disc, size_t disc_length, const uint8_t *name, size_t name_length, const uint8_t *data,
                              size_t data_length)
{
    return arduinos64_store(disc, disc_length, name, name_length, data, data_length);
}
EXPORT int32_t arduinos_retrieve(const uint8_t *disc, size_t disc_length, const uint8_t *name, size_t name_length, uint8_t *out,
                                 size_t out_length)
{
    return arduinos64_retrieve(disc, disc_length, name, name_length, out, out_length);
}
EXPORT int32_t arduinos_erase(uint8_t *disc, size_t disc_length, const uint8_t *area, size_t area_length, const uint8_t *name,
                              size_t name_length)
{
    return arduinos64_erase(disc, disc_length, area, area_length, name, name_length);
}
EXPORT int32_t arduinos_files(const uint8_t *disc, size_t disc_length, uint8_t *out, size_t out_length)
{
    return arduinos64_files(disc, disc_length, out, out_length);
}
EXPORT int32_t arduinos_free_space(const uint8_t *disc, size_t disc_length)
{
    return arduinos64_free_space(disc, disc_length);
}
EXPORT int32_t arduinos_run(const uint8_t *disc, size_t disc_length, uint8_t *area, size_t area_length, const uint8_t *name,
                            size_t name_length)
{
    return arduinos64_run(disc, disc_length, area, area_length, name, name_length);
}
EXPORT int32_t arduinos_suspend(const uint8_t *disc, size_t disc_length, uint8_t *area, size_t area_length, uint32_t id)
{
    return arduinos64_suspend(disc, disc_length, area, area_length, id);
}
EXPORT int32_t arduinos_resume(const uint8_t *disc, size_t disc_length, uint8_t *area, size_t area_length, uint32_t id)
{
    return arduinos64_resume(disc, disc_length, area, area_length, id);
}
EXPORT int32_t arduinos_kill(const uint8_t *disc, size_t disc_length, uint8_t *area, size_t area_length, uint32_t id)
{
    return arduinos64_kill(disc, disc_length, area, area_length, id);
}
EXPORT int32_t arduinos_share(const uint8_t *disc, size_t disc_length, uint8_t *area, size_t area_length, uint32_t id, uint32_t turns)
{
    return arduinos64_share(disc, disc_length, area, area_length, id, turns);
}
EXPORT int32_t arduinos_list(const uint8_t *disc, size_t disc_length, const uint8_t *area, size_t area_length, uint8_t *out,
                             size_t out_length)
{
    return arduinos64_list(disc, disc_length, area, area_length, out, out_length);
}
EXPORT int32_t arduinos_turn(uint8_t *disc, size_t disc_length, uint8_t *area, size_t area_length, uint32_t slot, uint32_t clock,
                             uint8_t *out, size_t out_length)
{
    return arduinos64_turn(disc, disc_length, area, area_length, slot, clock, out, out_length);
}
EXPORT int32_t arduinos_round(uint8_t *disc, size_t disc_length, uint8_t *area, size_t area_length, uint32_t clock, uint8_t *out,
                              size_t out_length)
{
    return arduinos64_round(disc, disc_length, area, area_length, clock, out, out_length);
}
