#include "say.h"

void say(const char *text)
{
    while (*text)
        put(*text++);
}

static void say_digits(uint64_t number, uint64_t base)
{
    char digits[20];
    int count = 0;
    do
        digits[count++] = "0123456789abcdef"[number % base];
    while (number /= base);
    while (count)
        put(digits[--count]);
}

void say_number(uint64_t number)
{
    say_digits(number, 10);
}

void say_hex(uint64_t number)
{
    say("0x");
    say_digits(number, 16);
}
