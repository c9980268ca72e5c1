/* Each call of mpt.h made (CALLS) or answered (!CALLS), with its structs; with PLAIN, with words in their place, from a copy of mpt.h in
 * which each struct is its field. In an ABI that passes both in the same place, register or stack, either half works with the other's. */
#include "mpt.h"

#ifdef PLAIN
#define MAKE(kind, number) ((mpt_##kind)(number))
#define FIELD(value, field) (value)
#else
#define MAKE(kind, number) ((mpt_##kind){number})
#define FIELD(value, field) ((value).field)
#endif

#ifdef CALLS
/* The compiler knows none of the numbers. */
uint64_t call_lookup(const uint64_t *n)
{
    return FIELD(mpt_lookup(n[0], MAKE(page, n[1]), n, n[2], MAKE(register, n[3]), MAKE(privilege, n[4]), MAKE(kind, n[5]),
                            MAKE(address, n[6])),
                 word);
}

uint64_t call_open(uint64_t *n)
{
    return FIELD(mpt_open(n[0], MAKE(page, n[1]), n, n[2], n, MAKE(slot, n[3]), MAKE(sdid, n[4])), word);
}

uint64_t call_close(const uint64_t *n)
{
    return FIELD(mpt_close(n[0], MAKE(page, n[1]), n, n[2], n, MAKE(slot, n[3])), word);
}

uint64_t call_edit(uint64_t *n)
{
    return FIELD(mpt_edit(n[0], MAKE(page, n[1]), n, n[2], n, MAKE(slot, n[3]), MAKE(address, n[4]), n[5], MAKE(permission, n[6]), n[7]),
                 word);
}

uint64_t call_sound(const uint64_t *n)
{
    return FIELD(mpt_sound(n[0], MAKE(page, n[1]), n, n[2], n), word);
}

uint64_t call_apart(const uint64_t *n)
{
    return FIELD(mpt_apart(n[0], MAKE(page, n[1]), n, n[2], n, MAKE(strength, n[3])), word);
}

/* What the other half makes of these numbers, worked out by hand: 1 + 3 * 20 + 5 * 1 + 7 * 300 + .. */
int main(void)
{
    uint64_t n[8] = {1, 20, 300, 4000, 50000, 600000, 7000000, 80000000};
    return call_lookup(n) != 2166 + 9 * UINT64_C(4000) + 11 * UINT64_C(50000) + 13 * UINT64_C(600000) + 15 * UINT64_C(7000000) ||
           call_open(n) != 2166 + 9 + 11 * UINT64_C(4000) + 13 * UINT64_C(50000) || call_close(n) != 2166 + 9 + 11 * UINT64_C(4000) ||
           call_sound(n) != 2166 + 9 || call_apart(n) != 2166 + 9 + 11 * UINT64_C(4000) ||
           call_edit(n) != 2166 + 9 + 11 * UINT64_C(4000) + 13 * UINT64_C(50000) + 15 * UINT64_C(600000) + 17 * UINT64_C(7000000) +
                               19 * UINT64_C(80000000);
}
#else
/* A number to which each argument adds in a way of its own. */
mpt_looked mpt_lookup(uint64_t paw, mpt_page first, const uint64_t *words, size_t count, mpt_register mmpt,
                      mpt_privilege privilege, mpt_kind kind, mpt_address address)
{
    return MAKE(looked, paw + 3 * FIELD(first, value) + 5 * words[0] + 7 * count + 9 * FIELD(mmpt, value) + 11 * FIELD(privilege, value) +
                            13 * FIELD(kind, value) + 15 * FIELD(address, value));
}

mpt_opened mpt_open(uint64_t paw, mpt_page first, uint64_t *words, size_t count, const uint64_t slots[8], mpt_slot slot, mpt_sdid sdid)
{
    return MAKE(opened, paw + 3 * FIELD(first, value) + 5 * words[0] + 7 * count + 9 * slots[0] + 11 * FIELD(slot, value) + 13 * FIELD(sdid, value));
}

mpt_closed mpt_close(uint64_t paw, mpt_page first, const uint64_t *words, size_t count, const uint64_t slots[8], mpt_slot slot)
{
    return MAKE(closed, paw + 3 * FIELD(first, value) + 5 * words[0] + 7 * count + 9 * slots[0] + 11 * FIELD(slot, value));
}

mpt_edited mpt_edit(uint64_t paw, mpt_page first, uint64_t *words, size_t count, const uint64_t slots[8], mpt_slot slot, mpt_address start,
                    uint64_t length, mpt_permission permission, uint64_t limit)
{
    return MAKE(edited, paw + 3 * FIELD(first, value) + 5 * words[0] + 7 * count + 9 * slots[0] + 11 * FIELD(slot, value) + 13 * FIELD(start, value) +
                            15 * length + 17 * FIELD(permission, value) + 19 * limit);
}

mpt_checked mpt_sound(uint64_t paw, mpt_page first, const uint64_t *words, size_t count, const uint64_t slots[8])
{
    return MAKE(checked, paw + 3 * FIELD(first, value) + 5 * words[0] + 7 * count + 9 * slots[0]);
}

mpt_tested mpt_apart(uint64_t paw, mpt_page first, const uint64_t *words, size_t count, const uint64_t slots[8], mpt_strength strength)
{
    return MAKE(tested, paw + 3 * FIELD(first, value) + 5 * words[0] + 7 * count + 9 * slots[0] + 11 * FIELD(strength, value));
}
#endif
