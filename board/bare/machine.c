#include "machine.h"

#include "say.h"

#define UART (*(volatile uint8_t *)0x10000000)
#define FINISHER (*(volatile uint32_t *)0x100000)
#define MTIMECMP (*(volatile uint64_t *)0x2004000)
#define MTIME (*(volatile uint64_t *)0x200bff8)

void put(char c)
{
    UART = (uint8_t)c;
}

static void end(uint32_t how)
{
    FINISHER = how;
    for (;;)
        ;
}

void reset(void)
{
    end(0x7777);
}

void stop(int failed)
{
    end(failed ? 1 << 16 | 0x3333 : 0x5555);
}

void protect(void)
{
    uint64_t stack = (uint64_t)USER_STACK >> 2 | (USER_STACK_BYTES / 8 - 1), all = ~UINT64_C(0) >> 10;
    __asm__ volatile("csrw pmpaddr0, %0" ::"r"(stack));
    __asm__ volatile("csrw pmpaddr1, %0" ::"r"(all));
    __asm__ volatile("csrw pmpcfg0, %0" ::"r"(0x1d1b)); /* naturally aligned powers of two; 0: read, write; 1: read, execute */
    __asm__ volatile("sfence.vma" ::: "memory");
}

uint64_t ticks(void)
{
    return MTIME;
}

void start_timer(uint64_t delay)
{
    MTIMECMP = MTIME + delay;
    __asm__ volatile("csrs mie, %0" ::"r"(0x80));
    __asm__ volatile("csrs mstatus, %0" ::"r"(8) : "memory");
}

void stop_timer(void)
{
    __asm__ volatile("csrc mstatus, %0" ::"r"(8) : "memory");
    MTIMECMP = ~UINT64_C(0);
}
