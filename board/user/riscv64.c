/* A RISC-V program for Linux with no C library: start, write, exit. */
#include "say.h"

uint64_t bench_cases(void);

static long system_call(long number, long a, long b, long c)
{
    register long a0 __asm__("a0") = a, a1 __asm__("a1") = b, a2 __asm__("a2") = c, a7 __asm__("a7") = number;
    __asm__ volatile("ecall" : "+r"(a0) : "r"(a1), "r"(a2), "r"(a7) : "memory");
    return a0;
}

void put(char c)
{
    system_call(64, 1, (long)&c, 1); /* write */
}

void _start(void)
{
    system_call(93, bench_cases() != 0, 0, 0); /* exit */
}
