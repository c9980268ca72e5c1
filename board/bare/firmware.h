/* A small firmware around the library, as docs/BOARD.md tells it: what it keeps over a reset, and its calls. */
#include "mpt.h"

enum { PAW = 32, FIRST_PAGE = 0x80000, PAGES = 16, COUNT = PAGES * MPT_PAGE_WORDS, STEPS = 10 };

/* What outlives a reset, beside the lent table memory. Each word is written by one store. */
struct firmware {
    uint64_t ready; /* READY: the words below were set up */
    uint64_t slots[MPT_SLOTS];
    /* The record of an edit. It counts while under_way is 1, and then it is whole. */
    uint64_t under_way, slot, start, length, permission;
    uint64_t done; /* how many steps of the plan are made */
};
#define READY UINT64_C(0x7265616479206d70)

/* What this bench does, step by step. */
enum { OPEN_SLOT, CLOSE_SLOT, EDIT_RANGE };
struct plan {
    int what;
    uint64_t slot, sdid, start, length;
    mpt_permission permission;
};
extern const struct plan plan[STEPS];

/* All of it: start up, and go on with the plan to its end. Returns 0 if the table is damaged. power_on: the board's flag for it, which it
 * keeps until the firmware is ready. */
int firmware(struct firmware *kept, uint64_t *words, uint64_t power_on);

/* The board's own: MFENCE.SPA on every hart. No operand is x0 but where it must mean "all". */
void fence_all(void);
void fence_domain(mpt_sdid sdid);
void fence_address(mpt_address address, mpt_sdid sdid);
