/* What the library calls. A firmware brings its own; these go byte by byte, so that none of the table's stores can pass for theirs. */
#include <stddef.h>
#include <stdint.h>

void *memcpy(void *to, const void *from, size_t count)
{
    for (size_t k = 0; k < count; k++)
        ((uint8_t *)to)[k] = ((const uint8_t *)from)[k];
    return to;
}

void *memset(void *to, int byte, size_t count)
{
    for (size_t k = 0; k < count; k++)
        ((uint8_t *)to)[k] = (uint8_t)byte;
    return to;
}
