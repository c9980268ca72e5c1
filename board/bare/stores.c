/* The call of a scenario, whole, every store trapped; the calls that store nothing. */
#include "test.h"

/* Works the call out by the second program, from the table as it is. */
static void work_out(void)
{
    struct whole *whole = &KEPT->whole;
    const struct edit *edit = &tried->edit;
    whole->count = list_of(&table, whole->list);
    if (whole->count != scenario->stores)
        fail("the list's length ", whole->count, ", by document 01 ", scenario->stores);
    for (int slot = 0; slot < 8; slot++)
        whole->slots[slot] = KEPT->slots[slot];
    copy_words(whole->before, TABLE);
    copy_words(whole->after, TABLE);
    for (uint64_t k = 0; k < whole->count; k++)
        whole->after[whole->list[k].at] = whole->list[k].word;
    read_all(KEPT->slots[EDITED], &whole->reads_before);
    read_all(KEPT->slots[OTHER], &whole->reads_other);
    copy_words(TABLE, whole->after);
    read_all(KEPT->slots[EDITED], &whole->reads_after);
    copy_words(TABLE, whole->before);
    for (uint64_t page = 0; page < UINT64_C(1) << (table.paw - 12); page++) {
        int inside = tried->call == EDIT && page * PAGE >= edit->start && page * PAGE - edit->start < edit->length;
        uint64_t wanted = inside ? edit->permission : whole->reads_before.pages[page];
        if (whole->reads_after.pages[page] != wanted)
            fail("the list does not give what the call asks: page ", page, " reads ", whole->reads_after.pages[page]);
    }
}

/* What the strict test must answer, by the readings: no table page is open, so of the lowest page that both domains have its number, the two
 * slots, and whether one of them may write it. */
static uint64_t separation(void)
{
    const uint8_t *edited = KEPT->whole.reads_before.pages, *other = KEPT->whole.reads_other.pages;
    if (KEPT->slots[OTHER] == 0)
        return MPT_FINE;
    for (uint64_t page = 0; page < UINT64_C(1) << (table.paw - 12); page++)
        if (edited[page] != NONE && other[page] != NONE)
            return page << 20 | OTHER << 16 | EDITED << 12 | (edited[page] >= RW || other[page] >= RW) << 10 | 1 << 8;
    return MPT_FINE;
}

/* Calls that may store nothing: any store would be one too many. */
static void calls_without_stores(void)
{
    uint64_t words = (uint64_t)TABLE, count = table.pages * PAGE_ENTRIES, slots = (uint64_t)KEPT->slots, mmpt = KEPT->slots[EDITED];
    watched = (struct watched){NULL, 0, 0, NEVER, NOTHING, EDITED};
    uint64_t start = tried->edit.start, reads = KEPT->whole.reads_before.pages[start / PAGE];
    uint64_t sound = call_trapped(SOUND, (uint64_t[10]){table.paw, FIRST, words, count, slots});
    uint64_t apart = call_trapped(APART, (uint64_t[10]){table.paw, FIRST, words, count, slots, MPT_STRICT.value});
    uint64_t as = MPT_SUPERVISOR.value, load = MPT_LOAD.value;
    uint64_t lookup = call_trapped(LOOKUP, (uint64_t[10]){table.paw, FIRST, words, count, mmpt, as, load, start});
    mpt_closed close = {call_trapped(CLOSE, (uint64_t[10]){table.paw, FIRST, words, count, slots, EDITED})};
    if (sound != MPT_FINE)
        fail("not sound: ", sound, ", slot 0 is ", mmpt);
    if (apart != separation())
        fail("apart ", apart, ", the walks of both domains give ", separation());
    if (lookup != (reads == NONE ? MPT_LOAD_FAULT : MPT_FINE))
        fail("lookup ", lookup, ", the walk reads ", reads);
    if (mpt_fence(close) != MPT_FENCE_DOMAIN || mpt_fence_sdid(close).value != (mmpt >> 54 & 63))
        fail("close ", close.word, ", slot ", EDITED);
}

void every_store(void)
{
    struct whole *whole = &KEPT->whole;
    phase = "";
    prepare();
    work_out();
    calls_without_stores();
    uint64_t answer = make_trapped(whole->list, whole->count, NEVER, THOROUGH);
    same_words(whole->after, NULL, 0);
    check_end(answer);
}
