/* Text, one character at a time; whoever links say.c gives `put`. */
#include <stdint.h>

void put(char c);
void say(const char *text);
void say_number(uint64_t number);
void say_hex(uint64_t number);
