/* The tests that the image makes: calls on a table made ready for each, every store trapped, every cut tried. And the same for a small
 * firmware around the library. */
#include "bytes.h"
#include "firmware.h"
#include "machine.h"
#include "mpt.h"
#include "say.h"
#include "second.h"

enum { FIRST = 0x80000, TRIED_PAGES = 16, TRIED_WORDS = TRIED_PAGES * PAGE_ENTRIES, TRIED_SPACE = 1 << (34 - 12), MOST_STEPS = 6 };
/* The library's calls, and one that only returns. */
enum { LOOKUP, OPEN, CLOSE, EDIT, SOUND, APART, CALLS, RETURN = CALLS };
/* The slots of a scenario: of the domain that is edited, of another that must stay as it is, and of one that is opened. */
enum { EDITED = 0, OTHER = 1, OPENED = 2 };
/* What a page holds that was never written by the monitor: rwx, if it were taken for an L1 page. */
#define OLD UINT64_C(0x3333333333333333)
#define PPN(mmpt) ((mmpt) & ((UINT64_C(1) << 44) - 1))
#define REGISTER(sdid, page) (UINT64_C(1) << 60 | (uint64_t)(sdid) << 54 | (page))

/* An open or an edit. */
struct step {
    int call;
    struct edit edit; /* of an open: its slot alone */
    uint64_t sdid;
};

/* A call that is tried, and what was made before it. The numbers are document 01's, or follow from it by hand. */
struct scenario {
    const char *name;
    uint64_t paw, pages;
    struct step before[MOST_STEPS], tried;
    uint64_t stores, free_after;
    uint64_t answer;     /* of an open: the register */
    struct step instead; /* and another call that may follow it when it is cut */
};
enum { CASE_C, CASE_F, CASE_G, CASE_H, TWO_PAGES, WIDE, THIRD_DOMAIN, SCENARIOS };
extern const struct scenario scenarios[SCENARIOS];
extern const struct scenario *scenario; /* the one that is tried now, */
extern const struct step *tried;        /* its call */
extern struct table table;              /* and its table */
void enter(int nth);
void prepare(void);
void make(const struct step *step);

/* How a domain reads: the permission of each page, or FAULT; and of each block that has one permission, else MIXED. */
struct reading {
    uint8_t pages[TRIED_SPACE], blocks[TRIED_SPACE / BLOCK_PAGES];
};
enum { MIXED = 255 };

/* The call that is tried, made whole: the slots, the lent memory and how the domain reads before it and after it, and its list of stores. */
struct whole {
    uint64_t slots[8], before[TRIED_WORDS], after[TRIED_WORDS];
    struct reading reads_before, reads_after, reads_other;
    struct store list[MOST_STORES];
    uint64_t count, free_after, ticks; /* ticks: how long it takes, not trapped */
};

/* A family of edits over two GiBs whose blocks outside the range all have an L1 page, each of which the edit has to read. */
enum { FLAT, PIECES, WITH_PAGE };
struct shape {
    int low, high;  /* the entries of the blocks at the two ends of the range */
    int low_mixed;  /* the L1 pages below are mixed, and stay; else they are of one permission, and are unlinked */
    int high_mixed; /* those above */
    int high_rest;  /* the block at the upper end has another permission where the range ends */
    int long_end;   /* the range ends before the last page of that block, not behind its first */
};

/* What outlives a reset. */
struct kept {
    uint64_t magic, nth, phase;
    uint64_t round, step;  /* how far the phase is */
    uint64_t pending;      /* whether a call was under way when the board was reset */
    uint64_t resets;       /* in this phase */
    uint64_t all, middle;  /* resets by the watchdog in all, and those between the first store of a call and its last */
    uint64_t deepest[CALLS];
    uint64_t slots[8];
    uint64_t found[TRIED_WORDS]; /* the lent memory as the call that is under way found it */
    struct whole whole;
    /* the firmware: what a step of its plan finds and leaves, the fences that it owes, by SDID, and whether the power was just switched on */
    struct firmware found_firmware, left_firmware;
    uint64_t owed[64], power_on, events;
    /* the edit that takes longest to make again up to the link of its new page: how many stores were made before, the word of the link, and
     * how many instructions a start takes, to come to a link and to come to the end of any edit */
    struct retry {
        struct shape shape;
        struct edit edit;
        uint64_t made, link, start[2];
    } retry;
};
enum { NEVER = MOST_STORES + 1 };

/* The call whose stores the trap handler holds against document 01. After each store, what it governs must read as before or as after;
 * THOROUGH: every address of both domains. */
enum { NOTHING, GOVERNED, THOROUGH };
struct watched {
    const struct store *list;
    uint64_t count, made, reset_at;
    int reading;
    uint64_t edited; /* the slot of the domain that the list edits */
};
extern struct watched watched;
void check_store(uint64_t address, uint64_t word);
void check_governed(uint64_t at);

/* What a trap leads to: a store that user mode may not make, which the handler makes; and a fence, which it only sees. */
extern void (*on_store)(uint64_t address, uint64_t word);
extern void (*on_fence)(uint64_t kind, uint64_t address, uint64_t sdid);
enum { FENCE_ALL = 3 }; /* beside MPT_FENCE_DOMAIN and MPT_FENCE_ADDRESS */
void watched_store(uint64_t address, uint64_t word);
extern int leave_user; /* the call in user mode ends after this trap */

/* One line, and the board stops: what failed, with up to two numbers. */
void fail(const char *fact, uint64_t number, const char *more, uint64_t other);
extern const char *phase; /* what the line says after the scenario's name */

/* calls.c and state.c: the library's calls, in user mode with each store trapped or in machine mode, and what must hold after one. */
uint64_t call_trapped(int which, const uint64_t arguments[10]);
uint64_t call_plain(int which, const uint64_t arguments[10]);
void say_stack(void);
size_t list_of(const struct table *table, struct store *list);
uint64_t make_trapped(const struct store *list, uint64_t count, uint64_t reset_at, int reading);
uint64_t make_plain(void);
uint64_t fence_of(const struct edit *edit, const struct store *list, uint64_t count);
void check_answer(uint64_t answer, const struct store *list, uint64_t count);
void copy_words(uint64_t *to, const uint64_t *from);
void same_words(const uint64_t *words, const struct store *list, uint64_t count);
void same_slots(void);
void read_all(uint64_t mmpt, struct reading *reading);
int block_reads(uint64_t mmpt, const struct reading *reading, uint64_t block);
void check_reads(const char *fact, uint64_t mmpt, const struct reading *reading);
void check_end(uint64_t answer);

/* The phases of a scenario. Those that reset the board go on where the last start stopped, and return when they are through. */
void every_store(void);
void every_cut(void);
void watchdog(void);
void say_watchdog(void);

/* The firmware, one step of its plan after the other. duties.c: run_firmware resets the board when so many of its stores and fences are
 * made; it returns when a step is counted, and says how many there were. edit_is_refused: whether an edit of the plan is refused. */
int edit_is_refused(const struct edit *edit);
uint64_t run_firmware(uint64_t reset_at);
void firmware_cuts(uint64_t from);
void firmware_watchdog(void);

/* How long calls take, and what a watchdog's period has to do with it. */
void count_instructions(void);
void watchdog_period(void);
