#include "second.h"

#include "bytes.h"

static int is_lent(const struct table *table, uint64_t page)
{
    return page >= table->first && page - table->first < table->pages;
}

static uint64_t word_of(const struct table *table, uint64_t page, uint64_t entry)
{
    return table->words[(page - table->first) * PAGE_ENTRIES + entry];
}

/* "An L1 page has 512 entries of 16 four-bit fields." And of document 02: "a reserved bit set in any of its 16 fields faults the access". */
static void walk_page(const struct table *table, uint64_t page, uint64_t from, uint64_t count, uint8_t *reads)
{
    for (uint64_t entry = from / 16; entry < (from + count) / 16; entry++) {
        uint64_t fields = word_of(table, page, entry);
        int reserved = (fields & UINT64_C(0xcccccccccccccccc)) != 0;
        for (int k = 0; k < 16; k++)
            reads[entry * 16 + k - from] = reserved ? FAULT : fields >> k * 4 & 3;
    }
}

static void walk_pieces(uint64_t info, uint64_t from, uint64_t count, uint8_t *reads)
{
    for (uint64_t page = from, next; page < from + count; page = next) {
        next = (page / PIECE_PAGES + 1) * PIECE_PAGES;
        if (next > from + count)
            next = from + count;
        fill(reads + page - from, info >> page / PIECE_PAGES * 2 & 3, next - page);
    }
}

void second_walk(const struct table *table, uint64_t mmpt, uint64_t page, uint64_t count, uint8_t *reads)
{
    uint64_t root = mmpt & ((UINT64_C(1) << 44) - 1), from = page % BLOCK_PAGES;
    uint64_t entry = is_lent(table, root) ? word_of(table, root, page / BLOCK_PAGES) : ~UINT64_C(0);
    uint64_t info = entry & ((UINT64_C(1) << 44) - 1), type = entry >> 44 & 7;
    if (entry >> 47 == 0 && type < 4 && info == 0)
        fill(reads, type, count);
    else if (entry >> 47 == 0 && type == 4 && is_lent(table, info))
        walk_page(table, info, from, count, reads);
    else if (entry >> 47 == 0 && type == 6 && info >> 32 == 0)
        walk_pieces(info, from, count, reads);
    else
        fill(reads, FAULT, count);
}

int second_whole_block(const struct table *table, uint64_t mmpt, uint64_t block)
{
    uint64_t root = mmpt & ((UINT64_C(1) << 44) - 1);
    uint64_t entry = is_lent(table, root) ? word_of(table, root, block) : ~UINT64_C(0), type = entry >> 44;
    if (entry == type << 44 && type < 4)
        return (int)type;
    return entry == (UINT64_C(6) << 44 | (entry & 3) * UINT64_C(0x55555555)) ? (int)(entry & 3) : -1;
}

/* "A page is free if it is no open slot's root and no such entry names it." */
void second_used_pages(const struct table *table, uint8_t used[MOST_PAGES])
{
    for (int page = 0; page < MOST_PAGES; page++)
        used[page] = 0;
    for (int slot = 0; slot < 8; slot++) {
        uint64_t root = table->slots[slot] & ((UINT64_C(1) << 44) - 1);
        if (table->slots[slot] == 0 || !is_lent(table, root))
            continue;
        used[root - table->first] = 1;
        for (uint64_t block = 0; block < UINT64_C(1) << (table->paw - 25); block++) {
            uint64_t entry = word_of(table, root, block), page = entry & ((UINT64_C(1) << 44) - 1);
            if (entry >> 44 == 4 && is_lent(table, page))
                used[page - table->first] = 1;
        }
    }
}

uint64_t second_free_pages(const struct table *table)
{
    uint8_t used[MOST_PAGES];
    uint64_t count = 0;
    second_used_pages(table, used);
    for (uint64_t page = 0; page < table->pages; page++)
        count += !used[page];
    return count;
}
