/* The largest table: PAW 34, 256 pages, eight roots and an L1 page in every other page, but for those that a call takes. And edits on it
 * that are as long as we could make them. */
#include "worst.h"

#define TYPE(type, info) ((uint64_t)(type) << 44 | (info))
#define UNIFORM(permission) ((permission) * UINT64_C(0x1111111111111111))
/* Pieces of all four permissions; the check takes longest for a TYPE 6 entry, but for one with an L1 page. And a GiB takes it longest if only its
 * first entry is of a 1G type: then it is read twice, gathered and entry by entry. */
#define MIXED_PIECES TYPE(6, UINT64_C(0xe4e4e4e4))
#define SLOWEST(block) ((block) % 32 ? MIXED_PIECES : TYPE(RW, 0))

const struct table largest = {34, FIRST, LARGEST_PAGES, TABLE, KEPT->slots};
static uint64_t next_page; /* the next page that is not in use */

static uint64_t *page_words(uint64_t page)
{
    return TABLE + page * PAGE_ENTRIES;
}

/* An L1 page for a block, all of it of one permission but for its last page or its first. */
static void give_page(uint64_t slot, uint64_t block, uint64_t permission, int last, int first)
{
    uint64_t *words = page_words(next_page);
    for (int k = 0; k < PAGE_ENTRIES; k++)
        words[k] = UNIFORM(permission);
    if (last)
        words[PAGE_ENTRIES - 1] ^= UINT64_C(1) << 60;
    if (first)
        words[0] ^= 1;
    page_words(slot)[block] = TYPE(4, FIRST + next_page++);
}

/* So many roots, with no L1 page. */
void open_roots(uint64_t count)
{
    for (uint64_t slot = 0; slot < 8; slot++) {
        KEPT->slots[slot] = slot < count ? REGISTER(slot, FIRST + slot) : 0;
        for (int k = 0; slot < count && k < PAGE_ENTRIES; k++)
            page_words(slot)[k] = SLOWEST(k);
    }
    next_page = count;
}

/* An L1 page for a block, closed but for two pieces. */
static void give_two_pieces(uint64_t slot, uint64_t block)
{
    uint64_t *words = page_words(next_page);
    for (uint64_t k = 0; k < PAGE_ENTRIES; k++)
        words[k] = k * 16 / PIECE_PAGES % 8 == slot ? UNIFORM(RW) : 0;
    page_words(slot)[block] = TYPE(4, FIRST + next_page++);
}

/* Eight domains that are kept apart, and every page in use: two pieces of a block are open to each, and in 248 blocks one of them has its two by
 * an L1 page. So each word of an L1 page must be read beside what the others have there. Nothing is open where the table lies, nor in the first
 * block of a GiB, so that it stays slow. */
void fill_apart(void)
{
    open_roots(8);
    for (uint64_t slot = 0; slot < 8; slot++) {
        uint64_t pieces = (uint64_t)RW << 2 * slot | (uint64_t)RW << (2 * slot + 16);
        for (uint64_t block = 0; block < PAGE_ENTRIES; block++)
            page_words(slot)[block] = block % 32 && block != FIRST / BLOCK_PAGES ? TYPE(6, pieces) : 0;
    }
    for (uint64_t block = PAGE_ENTRIES - 1; next_page < LARGEST_PAGES; block--)
        if (block % 32)
            give_two_pieces(block % 8, block);
}

/* L1 pages for a domain, from its highest block down, until so many pages are left; none for the first block of a GiB, so that it stays slow. */
void fill_up(uint64_t slot, uint64_t left)
{
    for (uint64_t block = PAGE_ENTRIES - 1; next_page + left < LARGEST_PAGES; block--)
        if (block % 32)
            give_page(slot, block, RW, 1, 1);
}

/* The blocks of the edited domain from GiB 0 to GiB 15: see struct shape. */
static void give_block(uint64_t block, int form, uint64_t permission, int last, int first)
{
    if (form == WITH_PAGE)
        give_page(WORST_SLOT, block, permission, last, first);
    else
        page_words(WORST_SLOT)[block] = form == FLAT ? TYPE(permission, 0) : TYPE(6, permission * UINT64_C(0x55555555));
}

/* The edit takes all permissions away, from the last block of GiB 0 up to a block of GiB 15. What lies between changes in every entry. */
struct edit make_shape(const struct shape *shape)
{
    open_roots(8);
    for (uint64_t block = 0; block < 31; block++)
        give_block(block, WITH_PAGE, NONE, 0, shape->low_mixed);
    give_block(31, shape->low, RX, 0, 0);
    for (uint64_t block = 32; block < 480; block++)
        give_block(block, PIECES, RWX, 0, 0);
    for (uint64_t block = 480; block < 512; block++)
        if (block == 480)
            give_block(block, shape->high, shape->high_rest ? RW : NONE, 0, 0);
        else
            give_block(block, WITH_PAGE, NONE, block == 511, shape->high_mixed);
    fill_up(0, (shape->low != WITH_PAGE) + (shape->high != WITH_PAGE));
    uint64_t start = 31 * BLOCK_PAGES + 1, past = 480 * BLOCK_PAGES + (shape->long_end ? BLOCK_PAGES - 1 : 1);
    return (struct edit){WORST_SLOT, start * PAGE, (past - start) * PAGE, NONE};
}

/* Every block changes, and those at both ends take a new page: as many stores as an edit can have. */
struct edit make_widest(void)
{
    open_roots(8);
    for (uint64_t block = 0; block < 512; block++)
        give_block(block, PIECES, RWX, 0, 0);
    for (uint64_t block = 1; next_page + 2 < LARGEST_PAGES; block++)
        give_page(WORST_SLOT, block, RW, 1, 0);
    return (struct edit){WORST_SLOT, PAGE, (UINT64_C(1) << 34) - 2 * PAGE, NONE};
}
