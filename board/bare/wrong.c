/* Stand-ins for mpt_edit and mpt_open that make the stores of document 01's list, as the second program gives it, and answer as they should;
 * wrong in one way alone, by WRONG, and with WRONG 0 in none. They are linked over the library by --wrap. */
#include "test.h"

static void store(const struct store *store)
{
    uint64_t at = store->at;
#if WRONG == 7 /* the page of a block is unlinked in another domain */
    if (store->word >> 44 == 6 && table.slots[OTHER])
        at = (PPN(table.slots[OTHER]) - FIRST) * PAGE_ENTRIES + store->block;
#endif
#if WRONG == 2 /* two stores of 4 bytes */
    ((volatile uint32_t *)(TABLE + at))[0] = (uint32_t)store->word;
    ((volatile uint32_t *)(TABLE + at))[1] = store->word >> 32;
#else
    *(volatile uint64_t *)(TABLE + at) = store->word;
#endif
}

/* A new page: entries 0 to 511 of the list, and 512 links it. */
static uint64_t place(uint64_t k, uint64_t count)
{
    if (count < PAGE_ENTRIES)
        return k;
#if WRONG == 1 /* linked first */
    return k == 0 ? PAGE_ENTRIES : k <= PAGE_ENTRIES ? k - 1 : k;
#elif WRONG == 3 /* from the top down */
    return k < PAGE_ENTRIES ? PAGE_ENTRIES - 1 - k : k;
#else
    return k;
#endif
}

static void make_stores(void)
{
    for (uint64_t k = 0; k < watched.count; k++) {
        if (WRONG == 4 && k == 99) /* one word left out */
            continue;
        if (WRONG == 6 && k + 1 == watched.count && KEPT->resets > 0) /* the last word left out, once there has been a reset */
            continue;
        store(&watched.list[place(k, watched.count)]);
        if (WRONG == 5 && k == 99) /* one word twice */
            store(&watched.list[k]);
    }
}

uint64_t __wrap_mpt_edit(uint64_t paw, uint64_t first, uint64_t *words, size_t size, const uint64_t slots[8], uint64_t slot, uint64_t start,
                         uint64_t length, uint64_t permission, uint64_t limit)
{
    (void)paw, (void)first, (void)words, (void)size, (void)limit;
    struct edit edit = {slot, start, length, permission};
    make_stores();
    return 256 | 1 << 9 | fence_of(&edit, watched.list, watched.count) << 10 | (slots[slot] >> 54 & 63) << 12 | watched.count << 18;
}

uint64_t __wrap_mpt_open(uint64_t paw, uint64_t first, uint64_t *words, size_t size, const uint64_t slots[8], uint64_t slot, uint64_t sdid)
{
    (void)paw, (void)words, (void)size, (void)slots, (void)slot;
    make_stores();
    return REGISTER(sdid, first + watched.list[0].at / PAGE_ENTRIES);
}
