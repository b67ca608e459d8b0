/* Compares the proved SQRT with C's sqrtf on all 2^32 patterns. A NaN of C's is taken as 7FC00000, as document 01 stores it. */
#include <inttypes.h>
#include <math.h>
#include <stdio.h>
#include <string.h>

uint32_t float_sqrt_bits(uint32_t n);

static uint32_t c_sqrt_bits(uint32_t n)
{
    float x;
    uint32_t r;
    memcpy(&x, &n, 4);
    x = sqrtf(x);
    if (x != x)
        return 0x7FC00000u;
    memcpy(&r, &x, 4);
    return r;
}

int main(void)
{
    uint64_t differences = 0;
    for (uint64_t n = 0; n < (uint64_t)1 << 32; n++) {
        uint32_t ours = float_sqrt_bits((uint32_t)n), theirs = c_sqrt_bits((uint32_t)n);
        if (ours != theirs && differences++ < 10)
            printf("%08" PRIX32 ": %08" PRIX32 " and %08" PRIX32 "\n", (uint32_t)n, ours, theirs);
    }
    printf("4294967296 patterns, %" PRIu64 " differences\n", differences);
    return differences != 0;
}
