/* Document 01, with item 3 of document 02, once more, in C and from the papers alone: how addresses read, which pages are free, and which
 * stores a call makes, in their order. What the library does on the board is compared with it. For sound tables, and for L1 entries with
 * reserved bits; refusals are not here. */
#include <stddef.h>
#include <stdint.h>

enum { PAGE = 4096, PAGE_ENTRIES = 512, PIECE_PAGES = 512, BLOCK_PAGES = 8192, GIB_BLOCKS = 32, MOST_STORES = 1536, MOST_PAGES = 256 };

/* The four permissions as document 01 numbers them, and beside them a walk that faults. */
enum { NONE = 0, RX = 1, RW = 2, RWX = 3, FAULT = 4 };

struct table {
    uint64_t paw, first, pages;
    const uint64_t *words;
    const uint64_t *slots;
};

/* One store: which word of the lent memory, what it gets, and for which block it is made. */
struct store {
    uint64_t at, word, block;
};

struct edit {
    uint64_t slot, start, length, permission;
};

/* "The walk", outside M mode, for pages of one block: the permission of each, or FAULT. Page and count are multiples of 16, and the bytes
 * are aligned to eight. */
void second_walk(const struct table *table, uint64_t mmpt, uint64_t page, uint64_t count, uint8_t *reads);

/* The same, if the block's entry alone gives all of its pages one permission; else -1. */
int second_whole_block(const struct table *table, uint64_t mmpt, uint64_t block);

/* A mark for each lent page that is in use, and how many have none. */
void second_used_pages(const struct table *table, uint8_t used[MOST_PAGES]);
uint64_t second_free_pages(const struct table *table);

/* The ordered stores of a whole call; how many. */
size_t second_open(const struct table *table, struct store list[PAGE_ENTRIES]);
size_t second_edit(const struct table *table, const struct edit *edit, struct store list[MOST_STORES]);
