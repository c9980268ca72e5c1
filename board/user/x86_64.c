#include "say.h"

#include <stdio.h>

uint64_t bench_cases(void);

void put(char c)
{
    putchar(c);
}

int main(void)
{
    return bench_cases() != 0;
}
