/* The calls that are tried: cases C, F, G and H of document 01, and longer ones beside a second domain. */
#include "test.h"

#define GIB UINT64_C(0x40000000)
#define OPENS(slot, sdid) {OPEN, {slot, 0, 0, 0}, sdid}
#define EDITS(slot, start, length, permission) {EDIT, {slot, start, length, permission}, 0}
#define EDIT_C EDITS(EDITED, GIB, PAGE, RW)
#define EDIT_G EDITS(EDITED, GIB, GIB, RW)
/* A second domain, with SDID 0: an L1 page, pieces and a whole GiB, some of it where the first domain is edited, and some of it rwx, as from
 * before document 02's item 6. */
#define TWO_DOMAINS OPENS(EDITED, 5), OPENS(OTHER, 0), EDITS(OTHER, GIB + 0x2001000, 0x302000, RWX), EDITS(OTHER, 3 * GIB, GIB, RX)

const struct scenario scenarios[SCENARIOS] = {
    [CASE_C] = {"case C", 32, 16, {OPENS(EDITED, 5)}, EDIT_C, .stores = 544, .free_after = 14},
    [CASE_F] = {"case F", 32, 16, {OPENS(EDITED, 5), EDIT_C}, EDITS(EDITED, GIB + 0x3000, PAGE, RX), .stores = 1, .free_after = 14},
    [CASE_G] = {"case G", 32, 16, {OPENS(EDITED, 5), EDIT_C}, EDIT_G, .stores = 32, .free_after = 15},
    [CASE_H] = {"case H", 32, 16, {OPENS(EDITED, 5), EDIT_C, EDIT_G}, EDITS(EDITED, GIB + 0x200000, 0x200000, NONE), .stores = 32,
                .free_after = 15},
    /* The blocks at both ends of the range take a new page, and the one between them loses its own: 513 + 1 + 513. All pages that are free
     * are taken. */
    [TWO_PAGES] = {"two new pages", 32, 6, {TWO_DOMAINS, EDITS(EDITED, GIB + 0x2000000, PAGE, RW)},
                   EDITS(EDITED, GIB + 0x1000, 0x4002000, RX), .stores = 1027, .free_after = 1},
    /* As many stores as an edit can have: every block of 16 GiB changes, and those at both ends take a new page. */
    [WIDE] = {"PAW 34", 34, 6,
              {TWO_DOMAINS, EDITS(EDITED, 0, 2 * GIB, RW), EDITS(EDITED, 2 * GIB + 0x10000, 14 * GIB - 0x10000, RW)},
              EDITS(EDITED, PAGE, 16 * GIB - 2 * PAGE, NONE), .stores = 1536, .free_after = 1},
    /* Instead of the open, an edit that takes the page which it was zeroing. */
    [THIRD_DOMAIN] = {"open", 32, 8, {TWO_DOMAINS, EDIT_C}, OPENS(OPENED, 63), .stores = 512, .free_after = 3,
                      .answer = UINT64_C(0x1fc0000000080004), .instead = EDITS(EDITED, 0, PAGE, RW)},
};

const struct scenario *scenario;
const struct step *tried;
struct table table;

void enter(int nth)
{
    scenario = &scenarios[nth];
    tried = &scenario->tried;
    table = (struct table){scenario->paw, FIRST, scenario->pages, TABLE, KEPT->slots};
    on_store = watched_store;
}

/* Makes a step by the second program. */
void make(const struct step *step)
{
    static struct store list[MOST_STORES];
    size_t count = step->call == OPEN ? second_open(&table, list) : second_edit(&table, &step->edit, list);
    for (size_t k = 0; k < count; k++)
        TABLE[list[k].at] = list[k].word;
    if (step->call == OPEN)
        KEPT->slots[step->edit.slot] = REGISTER(step->sdid, FIRST + list[0].at / PAGE_ENTRIES);
}

void prepare(void)
{
    for (int k = 0; k < TRIED_WORDS; k++)
        TABLE[k] = OLD;
    for (int slot = 0; slot < 8; slot++)
        KEPT->slots[slot] = 0;
    for (int k = 0; k < MOST_STEPS && scenario->before[k].call; k++)
        make(&scenario->before[k]);
}
