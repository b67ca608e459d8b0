/* Text out and an end: by semihosting on Cortex-M and RISC-V under qemu, by node on wasm32, by the C library on the host. With the start
 * of the first two, and the four functions of the C library that compilers call unasked. */
#include "machine.h"

#if defined(__arm__) || defined(__riscv)
static uintptr_t semihosting(uintptr_t operation, const void *argument)
{
#ifdef __arm__
    register uintptr_t r0 __asm__("r0") = operation;
    register const void *r1 __asm__("r1") = argument;
    __asm__ volatile("bkpt 0xab" : "+r"(r0) : "r"(r1) : "memory");
    return r0;
#else
    register uintptr_t a0 __asm__("a0") = operation;
    register const void *a1 __asm__("a1") = argument;
    __asm__ volatile(".balign 16\n.option push\n.option norvc\nslli zero, zero, 0x1f\nebreak\nsrai zero, zero, 7\n.option pop"
                     : "+r"(a0)
                     : "r"(a1)
                     : "memory");
    return a0;
#endif
}

void put(const void *bytes, size_t length)
{
    const char *from = bytes;
    char part[65];
    while (length > 0) {
        size_t some = length < 64 ? length : 64;
        for (size_t i = 0; i < some; i++) part[i] = from[i];
        part[some] = 0;
        semihosting(4, part);
        from += some;
        length -= some;
    }
}

static __attribute__((noreturn)) void finish(int status)
{
    uintptr_t why[2] = { 0x20026, (uintptr_t)status };
    semihosting(0x20, why);
    for (;;) {
    }
}

int main(void);
__attribute__((used, noreturn)) void lost(void)
{
    put_text("an exception was taken: more stack than there is, an access that is not aligned, a wild one\n");
    finish(99);
}

#ifdef __arm__
extern uint32_t stack_top[], data_from[], data_start[], data_end[], bss_start[], bss_end[];
__attribute__((used, noreturn)) void start(void)
{
#ifdef __ARM_FP
    *(volatile uint32_t *)0xe000ed88 |= 0xf << 20; /* the floating-point unit on */
    __asm__ volatile("dsb\n isb");
#endif
#if __ARM_ARCH >= 7 /* the memory protection unit: from 0 up to the stack nothing is written */
    *(volatile uint32_t *)0xe000ed98 = 0;
    *(volatile uint32_t *)0xe000ed9c = 0;
    *(volatile uint32_t *)0xe000eda0 = 6u << 24 | 1u << 17 | 28 << 1 | 1; /* 512 MB, only read */
    *(volatile uint32_t *)0xe000ed94 = 5;                                  /* the rest as ever */
    __asm__ volatile("dsb\n isb");
#endif
    for (uint32_t *to = data_start, *from = data_from; to < data_end;) *to++ = *from++;
    for (uint32_t *to = bss_start; to < bss_end;) *to++ = 0;
    finish(main());
}
__attribute__((section(".vectors"), used)) static const void *const vectors[] = {
    stack_top, start, lost, lost, lost, lost, lost, 0, 0, 0, 0, lost, lost, 0, lost, lost
};
#else
__attribute__((used, noreturn)) void begin(void)
{
    finish(main());
}
__attribute__((naked, aligned(4), used)) void trap(void)
{
    __asm__("la sp, stack_top\n j lost");
}
/* Its first entry of memory protection lets nothing be written from 0 up to the stack, not by the machine's own mode either. */
__attribute__((naked, section(".vectors"), used)) void start(void)
{
    __asm__(".option arch, +zicsr\n la sp, stack_top\n la t0, trap\n csrw mtvec, t0\n"
            "la t0, stack_bottom\n srli t0, t0, 2\n csrw pmpaddr0, t0\n li t0, 0x8d\n csrw pmpcfg0, t0\n la t0, begin\n jr t0");
}
#endif

#elif defined(__wasm__)
__attribute__((import_module("host"), import_name("put"))) void host_put(const void *bytes, size_t length);
void put(const void *bytes, size_t length)
{
    host_put(bytes, length);
}
#else
#include <stdio.h>
void put(const void *bytes, size_t length)
{
    fwrite(bytes, 1, length, stdout);
}
#endif

void put_text(const char *text)
{
    size_t length = 0;
    while (text[length]) length++;
    put(text, length);
}
void put_number(int32_t number)
{
    char text[12], *at = text + 12;
    uint32_t rest = number < 0 ? -(uint32_t)number : (uint32_t)number;
    do *--at = (char)('0' + rest % 10);
    while (rest /= 10);
    if (number < 0) *--at = '-';
    put(at, (size_t)(text + 12 - at));
}
void put_hex(uint32_t number)
{
    char text[8];
    for (int i = 0; i < 8; i++) text[i] = "0123456789abcdef"[number >> (28 - 4 * i) & 15];
    put(text, 8);
}

#if defined(__arm__) || defined(__riscv) || defined(__wasm__)
void *memcpy(void *to, const void *from, size_t n)
{
    char *t = to;
    const char *f = from;
    while (n--) *t++ = *f++;
    return to;
}
void *memmove(void *to, const void *from, size_t n)
{
    char *t = to;
    const char *f = from;
    if (t <= f)
        while (n--) *t++ = *f++;
    else
        while (n--) t[n] = f[n];
    return to;
}
void *memset(void *to, int value, size_t n)
{
    char *t = to;
    while (n--) *t++ = (char)value;
    return to;
}
int memcmp(const void *a, const void *b, size_t n)
{
    const unsigned char *p = a, *q = b;
    for (; n--; p++, q++)
        if (*p != *q) return *p - *q;
    return 0;
}
#endif
#ifdef __arm__ /* their names of the ARM run-time interface: clr takes (to, n), memset (to, n, value) */
#define SAME(what, parameters, call) \
    void __aeabi_##what parameters { call; } \
    void __aeabi_##what##4 parameters { call; } \
    void __aeabi_##what##8 parameters { call; }
SAME(memcpy, (void *to, const void *from, size_t n), memcpy(to, from, n))
SAME(memmove, (void *to, const void *from, size_t n), memmove(to, from, n))
SAME(memset, (void *to, size_t n, int value), memset(to, value, n))
SAME(memclr, (void *to, size_t n), memset(to, 0, n))
#endif
