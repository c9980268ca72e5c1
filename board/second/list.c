/* "The stores, in order, block by block upward through the touched GiBs" */
#include "second.h"

#include "bytes.h"

/* A list as it grows. */
struct lister {
    const struct table *table;
    const struct edit *edit;
    struct store *list;
    size_t count;
    uint64_t root;            /* page number */
    uint8_t used[MOST_PAGES]; /* the pages that can't be the next new one */
    uint8_t *after;           /* the permission of each page of the GiB once the edit is whole */
};

static void add(struct lister *lister, uint64_t page, uint64_t entry, uint64_t word, uint64_t block)
{
    uint64_t at = (page - lister->table->first) * PAGE_ENTRIES + entry;
    lister->list[lister->count++] = (struct store){at, word, block};
}

/* The entry, if it changes. */
static void add_changed(struct lister *lister, uint64_t page, uint64_t entry, uint64_t word, uint64_t block)
{
    if (lister->table->words[(page - lister->table->first) * PAGE_ENTRIES + entry] != word)
        add(lister, page, entry, word, block);
}

/* "New pages are the lowest pages free before the edit, in block order." */
static uint64_t next_new_page(struct lister *lister)
{
    uint64_t page = 0;
    while (lister->used[page])
        page++;
    lister->used[page] = 1;
    return lister->table->first + page;
}

/* Sixteen fields of four bits, the lowest page first. */
static uint64_t l1_entry(const uint8_t *permissions)
{
    uint64_t word = 0;
    for (int k = 0; k < 16; k++)
        word |= (uint64_t)permissions[k] << k * 4;
    return word;
}

static void table_block(struct lister *lister, uint64_t block, const uint8_t *after)
{
    uint64_t now = lister->table->words[(lister->root - lister->table->first) * PAGE_ENTRIES + block];
    int present = (now >> 44) == 4;
    uint64_t page = present ? now & ((UINT64_C(1) << 44) - 1) : next_new_page(lister);
    for (uint64_t entry = 0; entry < PAGE_ENTRIES; entry++) {
        uint64_t word = l1_entry(after + entry * 16);
        if (present)
            add_changed(lister, page, entry, word, block);
        else
            add(lister, page, entry, word, block);
    }
    if (!present)
        add(lister, lister->root, block, UINT64_C(4) << 44 | page, block);
}

/* "otherwise a block whose 2 MiB pieces are each of one permission is TYPE 6; any other block is TYPE 4." */
static void mixed_block(struct lister *lister, uint64_t block, const uint8_t *after)
{
    uint64_t pieces = 0;
    for (int piece = 0; piece < 16; piece++) {
        if (!all_one(after + piece * PIECE_PAGES, PIECE_PAGES)) {
            table_block(lister, block, after);
            return;
        }
        pieces |= (uint64_t)after[piece * PIECE_PAGES] << piece * 2;
    }
    add_changed(lister, lister->root, block, UINT64_C(6) << 44 | pieces, block);
}

/* The permission of each page of a GiB once the edit is whole. Returns whether all are one. */
static int read_gib(struct lister *lister, uint64_t number)
{
    const struct edit *edit = lister->edit;
    uint64_t from = number << 30, to = from + (1 << 30), end = edit->start + edit->length;
    uint64_t first = edit->start > from ? edit->start : from, past = end < to ? end : to;
    if (first == from && past == to) {
        lister->after[0] = edit->permission;
        return 1;
    }
    for (uint64_t k = 0; k < GIB_BLOCKS; k++)
        second_walk(lister->table, lister->table->slots[edit->slot], (number * GIB_BLOCKS + k) * BLOCK_PAGES, BLOCK_PAGES,
                    lister->after + k * BLOCK_PAGES);
    fill_between(lister->after, (first - from) / PAGE, (past - from) / PAGE, edit->permission);
    return all_one(lister->after, GIB_BLOCKS * BLOCK_PAGES);
}

/* "a GiB of one permission is 32 entries of that 1G type" */
static void gib(struct lister *lister, uint64_t number)
{
    int flat = read_gib(lister, number);
    for (uint64_t k = 0; k < GIB_BLOCKS; k++) {
        uint64_t block = number * GIB_BLOCKS + k;
        if (flat)
            add_changed(lister, lister->root, block, (uint64_t)lister->after[0] << 44, block);
        else
            mixed_block(lister, block, lister->after + k * BLOCK_PAGES);
    }
}

size_t second_edit(const struct table *table, const struct edit *edit, struct store list[MOST_STORES])
{
    static _Alignas(8) uint8_t after[GIB_BLOCKS * BLOCK_PAGES];
    uint64_t root = table->slots[edit->slot] & ((UINT64_C(1) << 44) - 1);
    struct lister lister = {table, edit, list, 0, root, {0}, after};
    second_used_pages(table, lister.used);
    for (uint64_t number = edit->start >> 30; number <= (edit->start + edit->length - 1) >> 30; number++)
        gib(&lister, number);
    return lister.count;
}

/* "takes the lowest free page, zeroes it" */
size_t second_open(const struct table *table, struct store list[PAGE_ENTRIES])
{
    struct lister lister = {table, NULL, list, 0, 0, {0}, NULL};
    second_used_pages(table, lister.used);
    uint64_t page = next_new_page(&lister);
    for (uint64_t entry = 0; entry < PAGE_ENTRIES; entry++)
        add(&lister, page, entry, 0, 0);
    return lister.count;
}
