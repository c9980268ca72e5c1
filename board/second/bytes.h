/* Permissions in bulk, eight bytes at a time, since the tests read whole GiBs. All is aligned to eight bytes, and so are the counts, but for
 * those of fill_between. */
#include <stddef.h>
#include <stdint.h>

typedef uint64_t __attribute__((may_alias)) eight;

static inline void fill(uint8_t *permissions, uint64_t permission, size_t count)
{
    for (size_t k = 0; k < count / 8; k++)
        ((eight *)permissions)[k] = permission * UINT64_C(0x0101010101010101);
}

static inline void fill_between(uint8_t *permissions, size_t from, size_t to, uint64_t permission)
{
    for (; from < to && from % 8 != 0; from++)
        permissions[from] = (uint8_t)permission;
    fill(permissions + from, permission, (to - from) / 8 * 8);
    for (from += (to - from) / 8 * 8; from < to; from++)
        permissions[from] = (uint8_t)permission;
}

static inline int same(const uint8_t *left, const uint8_t *right, size_t count)
{
    for (size_t k = 0; k < count / 8; k++)
        if (((const eight *)left)[k] != ((const eight *)right)[k])
            return 0;
    return 1;
}

/* Whether all are the first one. */
static inline int all_one(const uint8_t *permissions, size_t count)
{
    for (size_t k = 0; k < count / 8; k++)
        if (((const eight *)permissions)[k] != permissions[0] * UINT64_C(0x0101010101010101))
            return 0;
    return 1;
}
