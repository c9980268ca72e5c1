/* What the lent memory holds, how it reads, and what must hold of it at the end of a call. */
#include "test.h"

void copy_words(uint64_t *to, const uint64_t *from)
{
    for (uint64_t k = 0; k < table.pages * PAGE_ENTRIES; k++)
        to[k] = from[k];
}

/* The table must be these words with the first stores of the list made, and no others. */
void same_words(const uint64_t *words, const struct store *list, uint64_t count)
{
    static uint64_t wanted[TRIED_WORDS];
    copy_words(wanted, words);
    for (uint64_t k = 0; k < count; k++)
        wanted[list[k].at] = list[k].word;
    for (uint64_t k = 0; k < table.pages * PAGE_ENTRIES; k++)
        if (TABLE[k] != wanted[k])
            fail("not what the first stores of the list leave: word ", k, " is ", TABLE[k]);
}

/* No call writes a slot. */
void same_slots(void)
{
    for (int slot = 0; slot < 8; slot++)
        if (KEPT->slots[slot] != KEPT->whole.slots[slot])
            fail("a slot has changed: ", slot, ", it is ", KEPT->slots[slot]);
}

static uint64_t blocks(void)
{
    return UINT64_C(1) << (table.paw - 25);
}

void read_all(uint64_t mmpt, struct reading *reading)
{
    for (uint64_t block = 0; block < blocks(); block++) {
        uint8_t *pages = reading->pages + block * BLOCK_PAGES;
        second_walk(&table, mmpt, block * BLOCK_PAGES, BLOCK_PAGES, pages);
        reading->blocks[block] = all_one(pages, BLOCK_PAGES) ? pages[0] : MIXED;
    }
}

/* Whether a block reads so. */
int block_reads(uint64_t mmpt, const struct reading *reading, uint64_t block)
{
    static _Alignas(8) uint8_t now[BLOCK_PAGES];
    if (second_whole_block(&table, mmpt, block) == reading->blocks[block])
        return 1;
    second_walk(&table, mmpt, block * BLOCK_PAGES, BLOCK_PAGES, now);
    return same(now, reading->pages + block * BLOCK_PAGES, BLOCK_PAGES);
}

void check_reads(const char *fact, uint64_t mmpt, const struct reading *reading)
{
    for (uint64_t block = 0; block < blocks(); block++)
        if (!block_reads(mmpt, reading, block))
            fail(fact, block * BLOCK_PAGES * PAGE, ", register ", mmpt);
}

/* "sets the register": a new domain reads none everywhere. */
static void check_opened(uint64_t answer)
{
    KEPT->slots[OPENED] = answer;
    for (uint64_t block = 0; block < blocks(); block++)
        if (second_whole_block(&table, answer, block) != NONE)
            fail("the new domain does not read none: the block from ", block * BLOCK_PAGES * PAGE, ", register ", answer);
}

/* The end of a call, cut or not: every address of each domain reads as after the uncut one, as many pages are free, and no slot has
 * changed. */
void check_end(uint64_t answer)
{
    same_slots();
    if (tried->call == OPEN)
        check_opened(answer);
    check_reads("does not read as after the uncut call: the block from ", KEPT->slots[EDITED], &KEPT->whole.reads_after);
    check_reads("another domain has changed: the block from ", KEPT->slots[OTHER], &KEPT->whole.reads_other);
    if (second_free_pages(&table) != scenario->free_after)
        fail("free pages ", second_free_pages(&table), ", after the uncut call ", scenario->free_after);
    KEPT->slots[OPENED] = 0;
}
