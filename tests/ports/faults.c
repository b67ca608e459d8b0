/* What a board must tell, and not pass over: a stack that goes on and on, or, with UNALIGNED 1, a read of a word at an odd address. */
#include "machine.h"

#ifndef UNALIGNED
#define UNALIGNED 0
#endif

static uint8_t room[8] __attribute__((aligned(8)));
static volatile uint32_t sum;

/* As it is written, and not as a loop. */
static __attribute__((noinline, noclone, optimize("O0"))) uint32_t deeper(uint32_t n)
{
    volatile uint8_t own[64];
    own[n % 64] = (uint8_t)n;
    return n ? own[n % 64] + deeper(n - 1) : 0;
}
int main(void)
{
    uintptr_t odd = (uintptr_t)room + 1;
    __asm__ volatile("" : "+r"(odd)); /* the compiler is not to know where that is */
    sum = UNALIGNED ? *(volatile uint32_t *)odd : deeper(1000000);
    put_text("nothing happened\n");
    return 0;
}
