/* Cases A, C, E and F of document 01, V, W and X for items 3, 6 and 13 of document 02, arguments outside their kind, the parts of answers,
 * cut edits and the slots after them, written against mpt.h alone. Every number is the papers', or follows from them by hand. Exit status 0
 * if all answers are right. */
#include "mpt.h"

#include <inttypes.h>
#include <stdio.h>

enum { PAW = 32, PAGES = 16, COUNT = PAGES * MPT_PAGE_WORDS };
static const mpt_page FIRST = {0x80000};
static const mpt_slot SLOT = {0};
static const mpt_sdid SDID = {5};

static uint64_t words[COUNT];
static uint64_t slots[MPT_SLOTS];
static int wrong;

static void expect(const char *what, uint64_t got, uint64_t want)
{
    if (got == want)
        return;
    wrong++;
    fprintf(stderr, "%s: got 0x%" PRIx64 ", the papers say 0x%" PRIx64 "\n", what, got, want);
}

static mpt_looked look(mpt_kind kind, uint64_t address)
{
    return mpt_lookup_slot(PAW, FIRST, words, COUNT, slots, SLOT, MPT_SUPERVISOR, kind, mpt_to_address(address));
}

static mpt_edited edit_page(uint64_t start, mpt_permission permission)
{
    return mpt_edit(PAW, FIRST, words, COUNT, slots, SLOT, mpt_to_address(start), MPT_PAGE_BYTES, permission, MPT_MOST_STORES);
}

/* Of a lookup exactly one of the three is not 0. */
static void looked(const char *what, mpt_looked answer, int allowed, uint64_t fault, uint64_t refused)
{
    expect(what, (uint64_t)mpt_allowed(answer), (uint64_t)allowed);
    expect(what, mpt_fault(answer), fault);
    expect(what, mpt_lookup_refused(answer), refused);
}

static void open_bench(void)
{
    mpt_opened answer = mpt_open(PAW, FIRST, words, COUNT, slots, SLOT, SDID);
    expect("open: refused", mpt_refused(answer), 0);
    expect("open: register", mpt_opened_register(answer).value, UINT64_C(0x1140000000080000));
    expect("open: the slot is the caller's to write", slots[0], 0);
    expect("open: written", (uint64_t)mpt_write_opened(slots, SLOT, answer), 1);
    expect("open: slot 0", slots[0], UINT64_C(0x1140000000080000));
    answer = mpt_open(PAW, FIRST, words, COUNT, slots, SLOT, mpt_to_sdid(6));
    expect("open again", mpt_refused(answer), MPT_BAD_SLOT);
    mpt_register none = mpt_opened_register(answer);
    expect("open again: register", none.value, UINT64_C(0xF000000000000000));
    looked("open again: load under its register", mpt_lookup(PAW, FIRST, words, COUNT, none, MPT_SUPERVISOR, MPT_LOAD, mpt_to_address(0)),
           0, 0, MPT_BAD_REGISTER);
    expect("open again: written", (uint64_t)mpt_write_opened(slots, SLOT, answer), 0);
    expect("open again: slot 0", slots[0], UINT64_C(0x1140000000080000));
    looked("A: load on the new domain", look(MPT_LOAD, 0x40000000), 0, 5, 0);
}

/* An answer goes to no slot that it can't be of. Slot 0 is open. */
static void other_slots(void)
{
    mpt_opened one = mpt_open(PAW, FIRST, words, COUNT, slots, mpt_to_slot(1), mpt_to_sdid(6));
    /* takes the same page: one is not written yet */
    mpt_opened two = mpt_open(PAW, FIRST, words, COUNT, slots, mpt_to_slot(2), mpt_to_sdid(7));
    mpt_opened of_slot_0[] = {{UINT64_C(0x1180000000080000)}, {UINT64_C(0x114000000008000F)}}; /* its page, its SDID */
    expect("open: over slot 0", (uint64_t)mpt_write_opened(slots, SLOT, one), 0);
    expect("open: slot 8", (uint64_t)mpt_write_opened(slots, mpt_to_slot(MPT_SLOTS), one), 0);
    expect("open: slot 1", (uint64_t)mpt_write_opened(slots, mpt_to_slot(1), one), 1);
    expect("open: the second of two", (uint64_t)mpt_write_opened(slots, mpt_to_slot(2), two), 0);
    expect("open: in two slots", (uint64_t)mpt_write_opened(slots, mpt_to_slot(3), one), 0);
    expect("open: slot 0's page", (uint64_t)mpt_write_opened(slots, mpt_to_slot(3), of_slot_0[0]), 0);
    expect("open: slot 0's SDID", (uint64_t)mpt_write_opened(slots, mpt_to_slot(3), of_slot_0[1]), 0);
    expect("open: sound", (uint64_t)mpt_is_sound(mpt_sound(PAW, FIRST, words, COUNT, slots)), 1);
    mpt_closed closed = mpt_close(PAW, FIRST, words, COUNT, slots, mpt_to_slot(1));
    for (uint64_t slot = 0; slot <= MPT_SLOTS; slot++)
        if (slot != 1)
            expect("close: another slot", mpt_write_closed(slots, mpt_to_slot(slot), closed).value, MPT_HIGHEST_SDID + 1);
    expect("close: slot 1", mpt_write_closed(slots, mpt_to_slot(1), closed).value, 6);
    for (int slot = 0; slot < MPT_SLOTS; slot++)
        expect("all slots but 0", slots[slot], slot == 0 ? UINT64_C(0x1140000000080000) : 0);
}

static void case_c(void)
{
    mpt_edited answer = edit_page(0x40000000, MPT_RW);
    expect("C: refused", mpt_refused(answer), 0);
    expect("C: stores", mpt_stores(answer), 544);
    expect("C: all", (uint64_t)mpt_all(answer), 1);
    expect("C: fence", mpt_fence(answer), MPT_FENCE_DOMAIN);
    expect("C: fence SDID", mpt_fence_sdid(answer).value, 5);
    expect("C: L2 entry 32", words[32], UINT64_C(0x0000400000080001));
    for (int entry = 33; entry < 64; entry++)
        expect("C: L2 entries 33 to 63", words[entry], UINT64_C(0x0000600000000000));
}

static void case_e(void)
{
    looked("E: store", look(MPT_STORE, 0x40000FFF), 1, 0, 0);
    looked("E: fetch", look(MPT_FETCH, 0x40000FFF), 0, 1, 0);
    looked("E: page-table read for a store", look(MPT_WALK_STORE, 0x40001000), 0, 7, 0);
}

static void case_f(void)
{
    expect("F: L1 entry 0 before", words[512], 0x2);
    mpt_edited answer = edit_page(0x40003000, MPT_RX);
    expect("F: refused", mpt_refused(answer), 0);
    expect("F: stores", mpt_stores(answer), 1);
    expect("F: all", (uint64_t)mpt_all(answer), 1);
    expect("F: fence", mpt_fence(answer), MPT_FENCE_ADDRESS);
    expect("F: fence SDID", mpt_fence_sdid(answer).value, 5);
    expect("F: L1 entry 0 after", words[512], 0x1002);
}

/* "L1 entry 0x4000000000000002, load of its page 0, fault 5"; page 15 has the bit and says none. Then the bit where page 15 says rw, and in
 * the lowest field. */
static void case_v(void)
{
    uint64_t kept = words[512];
    words[512] = UINT64_C(0x4000000000000002);
    looked("V: load of page 0", look(MPT_LOAD, 0x40000000), 0, 5, 0);
    looked("V: load of page 15", look(MPT_LOAD, 0x4000F000), 0, 5, 0);
    expect("V: sound", (uint64_t)mpt_is_sound(mpt_sound(PAW, FIRST, words, COUNT, slots)), 0);
    words[512] = UINT64_C(0x6000000000000000);
    looked("V: load of page 15, rw", look(MPT_LOAD, 0x4000F000), 0, 5, 0);
    words[512] = UINT64_C(0x2000000000000004);
    looked("V: store to page 15", look(MPT_STORE, 0x4000F000), 0, 7, 0);
    words[512] = kept;
    looked("V: load of page 0 without it", look(MPT_LOAD, 0x40000000), 1, 0, 0);
}

/* No rwx in slots 1 to 7: the domain of slot 0, here in slot 0, 1 or 7. The page that slot 0 made rwx stays so beside an edit. */
static void case_w(void)
{
    static const uint64_t lent = 0x8000F000;
    uint64_t here = slots[0], zero[MPT_SLOTS] = {here}, one[MPT_SLOTS] = {0, here}, seven[MPT_SLOTS] = {0, 0, 0, 0, 0, 0, 0, here};
    struct {
        const char *what;
        const uint64_t *slots;
        uint64_t slot, start, length;
        mpt_permission permission;
        uint64_t refused;
    } edits[] = {
        {"W: rwx in slot 1", one, 1, 0x40005000, 0x1000, MPT_RWX, MPT_NO_WRITE_EXECUTE},
        {"W: rwx in slot 7", seven, 7, 0x40005000, 0x1000, MPT_RWX, MPT_NO_WRITE_EXECUTE},
        {"W: over the lent pages", one, 1, lent, 0x1000, MPT_RWX, MPT_NO_WRITE_EXECUTE},
        {"W: over the lent pages, slot 0", zero, 0, lent, 0x1000, MPT_RWX, MPT_MEETS_LENT},
        {"W: bad range", one, 1, lent, 0x800, MPT_RWX, MPT_BAD_RANGE},
        {"W: empty slot", one, 7, 0x40005000, 0x1000, MPT_RWX, MPT_BAD_SLOT},
        {"W: rx in slot 1", one, 1, 0x40005000, 0x1000, MPT_RX, 0},
        {"W: rw in slot 1", one, 1, 0x40005000, 0x1000, MPT_RW, 0},
        {"W: rwx in slot 0", zero, 0, 0x40005000, 0x1000, MPT_RWX, 0},
        {"W: rwx again in slot 1", one, 1, 0x40005000, 0x1000, MPT_RWX, MPT_NO_WRITE_EXECUTE},
        {"W: rw beside it in slot 1", one, 1, 0x40006000, 0x1000, MPT_RW, 0},
    };
    for (size_t k = 0; k < sizeof edits / sizeof *edits; k++) {
        mpt_edited answer = mpt_edit(PAW, FIRST, words, COUNT, edits[k].slots, mpt_to_slot(edits[k].slot), mpt_to_address(edits[k].start),
                                     edits[k].length, edits[k].permission, MPT_MOST_STORES);
        expect(edits[k].what, mpt_refused(answer), edits[k].refused);
        expect(edits[k].what, mpt_stores(answer), edits[k].refused ? 0 : 1);
    }
    expect("W: L1 entry 0", words[512], 0x2301002);
    expect("W: sound", (uint64_t)mpt_is_sound(mpt_sound(PAW, FIRST, words, COUNT, one)), 1);
}

/* Whether the domains of two slots are kept apart. Root 0 is the first page, root 1 the second; entry 32 is the block of 0x40000000, and
 * entry 64 that of the lent pages. */
static void case_x(void)
{
    static uint64_t table[4 * MPT_PAGE_WORDS];
    static const uint64_t none = 0, rx = UINT64_C(1) << 44, rw = UINT64_C(2) << 44, piece_rx = UINT64_C(0x600000000001),
                          piece_rw = UINT64_C(0x600000000002);
    uint64_t two[MPT_SLOTS] = {0, 0, UINT64_C(0x1140000000080000), 0, 0, UINT64_C(0x1180000000080001)};
    struct {
        const char *what;
        uint64_t own, other, lent, sharing, strict;
    } tables[] = {
        {"X: nothing open", none, none, none, 0, 0},
        {"X: rw to one", rw, none, none, 0, 0},
        {"X: rx to both", rx, rx, none, 0, UINT64_C(0x4000052100)},
        {"X: rw and rx", rw, rx, none, UINT64_C(0x4000052500), UINT64_C(0x4000052500)},
        {"X: rx and rw", rx, rw, none, UINT64_C(0x4000052500), UINT64_C(0x4000052500)},
        {"X: a table page rx", rw, none, piece_rx, 0, UINT64_C(0x8000005300)},
        {"X: a table page rw", rw, none, piece_rw, UINT64_C(0x8000005700), UINT64_C(0x8000005700)},
    };
    for (size_t k = 0; k < sizeof tables / sizeof *tables; k++) {
        table[32] = tables[k].own;
        table[512 + 32] = tables[k].other;
        table[512 + 64] = tables[k].lent;
        expect(tables[k].what, mpt_apart(PAW, FIRST, table, MPT_WORDS(table), two, MPT_SHARING).word, tables[k].sharing);
        expect(tables[k].what, mpt_apart(PAW, FIRST, table, MPT_WORDS(table), two, MPT_STRICT).word, tables[k].strict);
    }
    expect("X: broken frame", mpt_apart(29, FIRST, table, MPT_WORDS(table), two, MPT_STRICT).word, MPT_BAD_FRAME);
    expect("X: strength 2", mpt_apart(29, FIRST, table, MPT_WORDS(table), two, mpt_to_strength(2)).word, MPT_OUTSIDE_KIND);
    two[7] = two[5];
    expect("X: one register in two slots", mpt_apart(PAW, FIRST, table, MPT_WORDS(table), two, MPT_SHARING).word, MPT_NOT_SOUND);
}

/* The parts of a test's answer. */
static void separation(const char *what, uint64_t word, int apart, uint64_t refused, uint64_t page, uint64_t slot, uint64_t other)
{
    mpt_tested answer = {word};
    expect(what, (uint64_t)mpt_is_apart(answer), (uint64_t)apart);
    expect(what, mpt_apart_refused(answer), refused);
    expect(what, (uint64_t)mpt_not_apart(answer), !apart && refused == 0);
    expect(what, mpt_apart_page(answer).value, page);
    expect(what, mpt_apart_slot(answer).value, slot);
    expect(what, mpt_apart_other(answer).value, other);
}

static void separations(void)
{
    separation("apart", 0, 1, 0, UINT64_MAX, MPT_SLOTS, MPT_SLOTS);
    separation("apart: not sound", 3, 0, 3, UINT64_MAX, MPT_SLOTS, MPT_SLOTS);
    separation("apart: 255", 255, 0, 255, UINT64_MAX, MPT_SLOTS, MPT_SLOTS);
    separation("a table page", UINT64_C(0x8000005300), 0, 0, 0x80000, 5, MPT_SLOTS);
    separation("a shared page", UINT64_C(0x3FFFFF76500), 0, 0, 0x3FFFFF, 6, 7);
    separation("page 0", 0x10100, 0, 0, 0, 0, 1);
    mpt_tested table = {UINT64_C(0x8000005300)}, shared = {UINT64_C(0x4000052500)};
    expect("a table page: table", (uint64_t)mpt_apart_table(table), 1);
    expect("a table page: written", (uint64_t)mpt_apart_written(table), 0);
    expect("a shared page: table", (uint64_t)mpt_apart_table(shared), 0);
    expect("a shared page: written", (uint64_t)mpt_apart_written(shared), 1);
}

static void codes(void)
{
    expect("sound", (uint64_t)mpt_is_sound(mpt_sound(PAW, FIRST, words, COUNT, slots)), 1);
    mpt_checked broken = mpt_sound(MPT_LOWEST_PAW - 1, FIRST, words, COUNT, slots);
    expect("sound, broken frame", broken.word, MPT_BAD_FRAME);
    expect("sound, broken frame: is sound", (uint64_t)mpt_is_sound(broken), 0);
    mpt_address zero = {0};
    mpt_register bare = mpt_to_register(0), mode_2 = mpt_to_register(UINT64_C(2) << 60);
    looked("privilege 2", mpt_lookup(PAW, FIRST, words, COUNT, bare, mpt_to_privilege(2), MPT_LOAD, zero), 0, 0, MPT_OUTSIDE_KIND);
    looked("MODE 2", mpt_lookup(PAW, FIRST, words, COUNT, mode_2, MPT_USER, MPT_LOAD, zero), 0, 0, MPT_BAD_REGISTER);
    expect("permission 4", mpt_refused(edit_page(0, mpt_to_permission(4))), MPT_OUTSIDE_KIND);
    expect("the page of an address", mpt_page_of(mpt_to_address(0x40123456)).value, 0x40123);
    static const uint64_t fixed[3] = {0};
    expect("the words of an array", MPT_WORDS(words), COUNT);
    expect("the words of an array that stays as it is", MPT_WORDS(fixed) + fixed[0], 3);
}

/* Bare, which is allowed in every frame that keeps its bounds. */
static void bounds(const char *what, uint64_t paw, size_t pages, int within)
{
    static uint64_t memory[(MPT_MOST_PAGES + 1) * MPT_PAGE_WORDS];
    mpt_register bare = mpt_to_register(0);
    mpt_looked answer = mpt_lookup(paw, mpt_to_page(1), memory, pages * MPT_PAGE_WORDS, bare, MPT_USER, MPT_LOAD, mpt_to_address(0));
    looked(what, answer, within, 0, within ? 0 : MPT_BAD_FRAME);
}

static mpt_looked look_in(uint64_t paw, uint64_t slot, mpt_privilege privilege, mpt_kind kind)
{
    return mpt_lookup_slot(paw, FIRST, words, COUNT, slots, mpt_to_slot(slot), privilege, kind, mpt_to_address(0x40000000));
}

/* What an empty slot holds would be Bare, which allows everything: as a register it does, as a slot it is refused, at every privilege
 * and for every kind. Slot 0 alone is open. */
static void lookups_by_slot(void)
{
    mpt_register empty = mpt_to_register(slots[1]);
    looked("0 as a register", mpt_lookup(PAW, FIRST, words, COUNT, empty, MPT_USER, MPT_STORE, mpt_to_address(0x40000000)), 1, 0, 0);
    static const uint64_t privileges[] = {0, 1, 3}, none[] = {1, 7, MPT_SLOTS, MPT_SLOTS + 1, UINT64_C(1) << 32, UINT64_MAX};
    for (int p = 0; p < 3; p++)
        for (uint64_t kind = 0; kind <= MPT_UPDATE_STORE.value; kind++)
            for (int k = 0; k < 6; k++)
                looked("a slot that is empty or none", look_in(PAW, none[k], mpt_to_privilege(privileges[p]), mpt_to_kind(kind)), 0, 0,
                       MPT_BAD_SLOT);
    looked("an open slot", look_in(PAW, 0, MPT_USER, MPT_STORE), 1, 0, 0);
    looked("an open slot, fault", look_in(PAW, 0, MPT_USER, MPT_FETCH), 0, 1, 0);
    looked("an empty slot, broken frame", look_in(MPT_HIGHEST_PAW + 1, 1, MPT_USER, MPT_LOAD), 0, 0, MPT_BAD_FRAME);
    looked("an empty slot, kind 9", look_in(PAW, 1, MPT_USER, mpt_to_kind(9)), 0, 0, MPT_OUTSIDE_KIND);
    slots[1] = UINT64_C(1) << 44; /* MODE 0 and not 0: as a register Bare, since WPRI counts for nothing */
    looked("a slot with Bare", look_in(PAW, 1, MPT_USER, MPT_LOAD), 0, 0, MPT_BAD_REGISTER);
    slots[1] = UINT64_C(2) << 60;
    looked("a slot with MODE 2", look_in(PAW, 1, MPT_USER, MPT_LOAD), 0, 0, MPT_BAD_REGISTER);
    slots[1] = 0;
}

/* Makes an edit until it is not cut; how many calls that took, and no more than ten. */
static int edit_all(uint64_t start, uint64_t length, uint64_t limit, mpt_edited *last)
{
    int calls = 0;
    do
        *last = mpt_edit(PAW, FIRST, words, COUNT, slots, SLOT, mpt_to_address(start), length, MPT_RX, limit);
    while (++calls < 10 && mpt_cut(*last));
    return calls;
}

/* A loop that goes on while an edit is cut ends with it, and at once if it is refused. */
static void cut_edits(void)
{
    mpt_edited last;
    expect("a lent page: calls", (uint64_t)edit_all(0x80000000, MPT_PAGE_BYTES, MPT_LEAST_LIMIT, &last), 1);
    expect("a lent page: refused", mpt_refused(last), MPT_MEETS_LENT);
    expect("a lent page: all", (uint64_t)mpt_all(last), 0);
    mpt_edited unknown = edit_page(0, mpt_to_permission(4));
    expect("permission 4: cut", (uint64_t)mpt_cut(unknown), 0);
    /* a new page and its link in two blocks, 513 stores each, and the 30 other entries of that GiB */
    expect("less than a page and its link: calls", (uint64_t)edit_all(0xC1FFF000, 0x2000, MPT_LEAST_LIMIT - 1, &last), 10);
    expect("less than a page and its link: cut", (uint64_t)mpt_cut(last), 1);
    expect("two new pages: calls", (uint64_t)edit_all(0xC1FFF000, 0x2000, MPT_LEAST_LIMIT, &last), 3);
    expect("two new pages: refused", mpt_refused(last), 0);
    expect("two new pages: all", (uint64_t)mpt_all(last), 1);
    expect("two new pages: cut", (uint64_t)mpt_cut(last), 0);
    looked("two new pages: fetch in the first", look(MPT_FETCH, 0xC1FFF000), 1, 0, 0);
    looked("two new pages: fetch in the second", look(MPT_FETCH, 0xC2000FFF), 1, 0, 0);
    looked("two new pages: fetch past them", look(MPT_FETCH, 0xC2001000), 0, 1, 0);
}

static void close_bench(void)
{
    mpt_closed answer = mpt_close(PAW, FIRST, words, COUNT, slots, SLOT);
    expect("close: refused", mpt_refused(answer), 0);
    expect("close: fence", mpt_fence(answer), MPT_FENCE_DOMAIN);
    expect("close: fence SDID", mpt_fence_sdid(answer).value, 5);
    expect("close: the slot is the caller's to write", slots[0], UINT64_C(0x1140000000080000));
    expect("close: SDID to fence", mpt_write_closed(slots, SLOT, answer).value, 5);
    expect("close: slot 0", slots[0], 0);
    answer = mpt_close(PAW, FIRST, words, COUNT, slots, SLOT);
    expect("close again", mpt_refused(answer), MPT_BAD_SLOT);
    slots[0] = 77;
    expect("close again: SDID to fence", mpt_write_closed(slots, SLOT, answer).value, MPT_HIGHEST_SDID + 1);
    expect("close again: slot 0", slots[0], 77);
}

int main(void)
{
    expect("version", mpt_version(), MPT_VERSION);
    expect("version fits", (uint64_t)mpt_version_fits(), 1);
    open_bench();
    other_slots();
    case_c();
    case_e();
    case_f();
    case_v();
    case_w();
    case_x();
    separations();
    codes();
    lookups_by_slot();
    cut_edits();
    bounds("below the lowest PAW", MPT_LOWEST_PAW - 1, MPT_FEWEST_PAGES, 0);
    bounds("the lowest PAW", MPT_LOWEST_PAW, MPT_FEWEST_PAGES, 1);
    bounds("the highest PAW", MPT_HIGHEST_PAW, MPT_FEWEST_PAGES, 1);
    bounds("above the highest PAW", MPT_HIGHEST_PAW + 1, MPT_FEWEST_PAGES, 0);
    bounds("too few pages", PAW, MPT_FEWEST_PAGES - 1, 0);
    bounds("the most pages", PAW, MPT_MOST_PAGES, 1);
    bounds("too many pages", PAW, MPT_MOST_PAGES + 1, 0);
    close_bench();
    if (wrong == 0)
        puts("C interface: cases A, C, E, F, V, W and X as the papers say");
    return wrong == 0 ? 0 : 1;
}
