/* drive CASE: opens a domain and makes the edits of one bench case, on a table at a fixed address, so that a trace of the run's stores
 * can be told by their addresses. Exit status 0 if every call was made whole. */
#include "mpt.h"

#include <sys/mman.h>

#define TABLE ((void *)0x60000000)
enum { PAGES = 16, COUNT = PAGES * MPT_PAGE_WORDS };
static const mpt_page FIRST = {0x80000};
static const mpt_slot SLOT = {0};

static uint64_t *words;
static uint64_t slots[MPT_SLOTS];
static uint64_t paw = 32;
static int wrong;

static void edit(uint64_t start, uint64_t length, mpt_permission permission)
{
    mpt_edited answer = mpt_edit(paw, FIRST, words, COUNT, slots, SLOT, mpt_to_address(start), length, permission, MPT_MOST_STORES);
    wrong |= mpt_refused(answer) != 0 || !mpt_all(answer);
}

int main(int count, char **word)
{
    char name = count == 2 ? word[1][0] : 0;
    words = mmap(TABLE, COUNT * 8, PROT_READ | PROT_WRITE, MAP_PRIVATE | MAP_ANONYMOUS | MAP_FIXED, -1, 0);
    if (words != TABLE || name == 0)
        return 2;
    paw = name == 'w' ? 34 : 32;
    if (!mpt_write_opened(slots, SLOT, mpt_open(paw, FIRST, words, COUNT, slots, SLOT, mpt_to_sdid(5))))
        return 1;
    if (name == 'w') { /* wide: 16 GiB */
        edit(0x000000000, 0x080000000, MPT_RW);
        edit(0x0C0000000, 0x340000000, MPT_RW);
        edit(0x000000000, 0x400000000, MPT_NONE);
        return wrong;
    }
    edit(0x40000000, 0x1000, MPT_RW); /* case C */
    if (name == 'F')
        edit(0x40003000, 0x1000, MPT_RX);
    if (name == 'G' || name == 'H')
        edit(0x40000000, 0x40000000, MPT_RW);
    if (name == 'H')
        edit(0x40200000, 0x200000, MPT_NONE);
    return wrong;
}
