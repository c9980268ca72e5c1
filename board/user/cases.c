/* The bench cases of document 01, A to K, V for item 3 of document 02, and our W and X for its items 6 and 13, by the library alone. One line
 * for each answer; the expected ones are the papers' own numbers, or follow from their text by hand. `bench_cases` returns how many were
 * wrong. */
#include "mpt.h"
#include "say.h"
#include "second.h"

enum { PAW = 32, PAGES = 16, LIMIT = MPT_MOST_STORES };
static const mpt_page FIRST = {0x80000};
static const mpt_slot SLOT = {0};
static uint64_t words[PAGES * PAGE_ENTRIES], slots[MPT_SLOTS];
static size_t count;
static uint64_t wrong;

static void expect(const char *what, uint64_t got, uint64_t want)
{
    say(what);
    say(": ");
    say_hex(got);
    if (got != want) {
        wrong++;
        say(" WRONG, the papers say ");
        say_hex(want);
    }
    put('\n');
}

/* A number that stands for every word and slot: the same on every machine. */
static void memory(const char *after)
{
    uint64_t sum = UINT64_C(0xcbf29ce484222325);
    for (size_t k = 0; k < count; k++)
        sum = (sum ^ words[k]) * UINT64_C(0x100000001b3);
    for (int k = 0; k < 8; k++)
        sum = (sum ^ slots[k]) * UINT64_C(0x100000001b3);
    say(after);
    say(": memory ");
    say_hex(sum);
    put('\n');
}

/* "slot 0 opened with SDID 5"; the free pages hold something, as they do on a board. */
static void new_domain(size_t pages)
{
    count = pages * PAGE_ENTRIES;
    for (int k = 0; k < PAGES * PAGE_ENTRIES; k++)
        words[k] = UINT64_C(0x3333333333333333);
    for (int k = 0; k < 8; k++)
        slots[k] = 0;
    expect("opened", mpt_write_opened(slots, SLOT, mpt_open(PAW, FIRST, words, count, slots, SLOT, mpt_to_sdid(5))), 1);
}

static uint64_t look(mpt_kind kind, uint64_t address)
{
    return mpt_lookup_slot(PAW, FIRST, words, count, slots, SLOT, MPT_SUPERVISOR, kind, mpt_to_address(address)).word;
}

static mpt_edited edit(uint64_t start, uint64_t length, mpt_permission permission, uint64_t limit)
{
    return mpt_edit(PAW, FIRST, words, count, slots, SLOT, mpt_to_address(start), length, permission, limit);
}

static mpt_edited page(uint64_t start, mpt_permission permission)
{
    return edit(start, 0x1000, permission, LIMIT);
}

static void made(const char *what, mpt_edited answer, uint64_t stores, int all, uint64_t fence)
{
    say(what);
    put('\n');
    expect("  refused", mpt_refused(answer), 0);
    expect("  stores", mpt_stores(answer), stores);
    expect("  all", mpt_all(answer), all);
    expect("  cut", mpt_cut(answer), !all);
    expect("  fence", mpt_fence(answer), fence);
    if (fence != MPT_FENCE_NONE)
        expect("  of SDID", mpt_fence_sdid(answer).value, 5);
}

static void entries(const char *what, int from, int to, uint64_t want)
{
    for (int entry = from; entry <= to; entry++)
        if (words[entry] != want || entry == to) {
            expect(what, words[entry], want);
            return;
        }
}

static void free_pages(const char *what, uint64_t want)
{
    struct table table = {PAW, FIRST.value, count / PAGE_ENTRIES, words, slots};
    expect(what, second_free_pages(&table), want);
}

static void cases_a_to_e(void)
{
    new_domain(PAGES);
    expect("open: register", slots[0], UINT64_C(0x1140000000080000));
    expect("A: load", look(MPT_LOAD, 0x40000000), MPT_LOAD_FAULT);
    made("B: rw at 0x40123000", page(0x40123000, MPT_RW), 544, 1, MPT_FENCE_DOMAIN);
    expect("B: L2 entry 32", words[32], UINT64_C(0x0000400000080001));
    expect("B: L1 entry 18, field 3", words[512 + 18], 0x2000);
    memory("B");
    new_domain(PAGES);
    made("D: limit 512", edit(0x40000000, 0x1000, MPT_RW, 512), 512, 0, MPT_FENCE_DOMAIN);
    expect("D: load", look(MPT_LOAD, 0x40000000), MPT_LOAD_FAULT);
    new_domain(PAGES);
    made("D: limit 513", edit(0x40000000, 0x1000, MPT_RW, 513), 513, 0, MPT_FENCE_DOMAIN);
    expect("D: load", look(MPT_LOAD, 0x40000000), MPT_FINE);
    expect("D: load at 0x40001000", look(MPT_LOAD, 0x40001000), MPT_LOAD_FAULT);
    made("D: C again", page(0x40000000, MPT_RW), 31, 1, MPT_FENCE_DOMAIN);
    memory("D");
    new_domain(PAGES);
    made("C: rw at 0x40000000", page(0x40000000, MPT_RW), 544, 1, MPT_FENCE_DOMAIN);
    expect("C: L2 entry 32", words[32], UINT64_C(0x0000400000080001));
    entries("C: L2 entries 33 to 63", 33, 63, UINT64_C(0x0000600000000000));
    memory("C");
    expect("E: store", look(MPT_STORE, 0x40000fff), MPT_FINE);
    expect("E: fetch", look(MPT_FETCH, 0x40000fff), MPT_FETCH_FAULT);
    expect("E: page-table read for a store", look(MPT_WALK_STORE, 0x40001000), MPT_STORE_FAULT);
}

static void cases_f_to_h(void)
{
    expect("F: L1 entry 0 before", words[512], 0x2);
    made("F: rx at 0x40003000", page(0x40003000, MPT_RX), 1, 1, MPT_FENCE_ADDRESS);
    expect("F: L1 entry 0", words[512], 0x1002);
    memory("F");
    new_domain(PAGES);
    expect("G: rw at 0x40000000 first", mpt_stores(page(0x40000000, MPT_RW)), 544);
    made("G: rw over a GiB", edit(0x40000000, 0x40000000, MPT_RW, LIMIT), 32, 1, MPT_FENCE_DOMAIN);
    entries("G: L2 entries 32 to 63", 32, 63, UINT64_C(0x0000200000000000));
    free_pages("G: free pages", 15);
    memory("G");
    made("H: none over 2 MiB", edit(0x40200000, 0x200000, MPT_NONE, LIMIT), 32, 1, MPT_FENCE_DOMAIN);
    expect("H: L2 entry 32", words[32], UINT64_C(0x00006000AAAAAAA2));
    entries("H: L2 entries 33 to 63", 33, 63, UINT64_C(0x00006000AAAAAAAA));
    memory("H");
}

static void cases_i_to_k(void)
{
    new_domain(PAGES);
    made("I: rw at the top", page(0xfffff000, MPT_RW), 544, 1, MPT_FENCE_DOMAIN);
    expect("I: rw past the top", mpt_refused(edit(0xfffff000, 0x2000, MPT_RW, LIMIT)), MPT_BAD_RANGE);
    expect("I: load past the top", look(MPT_LOAD, 0x100000000), MPT_LOAD_FAULT);
    memory("I");
    new_domain(PAGES);
    expect("J: rw on a lent page", mpt_refused(page(0x8000f000, MPT_RW)), MPT_MEETS_LENT);
    made("J: rw beside the lent pages", page(0x80010000, MPT_RW), 544, 1, MPT_FENCE_DOMAIN);
    made("J: none on a lent page", page(0x8000f000, MPT_NONE), 0, 1, MPT_FENCE_NONE);
    memory("J");
    new_domain(2);
    made("K: rw at 0x40000000", page(0x40000000, MPT_RW), 544, 1, MPT_FENCE_DOMAIN);
    expect("K: rw at 0x42000000", mpt_refused(page(0x42000000, MPT_RW)), MPT_NO_FREE_PAGE);
    made("K: none at 0x40000000", page(0x40000000, MPT_NONE), 32, 1, MPT_FENCE_DOMAIN);
    made("K: rw at 0x42000000 again", page(0x42000000, MPT_RW), 544, 1, MPT_FENCE_DOMAIN);
    memory("K");
}

/* Document 02, item 3: "L1 entry 0x4000000000000002, load of its page 0, fault 5". Page 15 has the bit and says none, and the next entry has
 * no such bit; then the bit where page 15 says rw, and in the lowest field. Then each bit of an entry of rw in turn, of which 32 are
 * reserved, and each of its 16 pages, by the library and by the second walk. */
static void case_v(void)
{
    _Alignas(8) uint8_t reads[16];
    uint64_t right = 0, second = 0;
    new_domain(PAGES);
    expect("V: rw at 0x40000000 first", mpt_stores(page(0x40000000, MPT_RW)), 544);
    words[512] = UINT64_C(0x4000000000000002);
    words[513] = 0x2;
    words[514] = UINT64_C(0x6000000000000000);
    words[515] = UINT64_C(0x2000000000000004);
    expect("V: load of page 0", look(MPT_LOAD, 0x40000000), MPT_LOAD_FAULT);
    expect("V: load of page 15", look(MPT_LOAD, 0x4000f000), MPT_LOAD_FAULT);
    expect("V: load of page 0 of the next entry", look(MPT_LOAD, 0x40010000), MPT_FINE);
    expect("V: load of page 15, rw", look(MPT_LOAD, 0x4002f000), MPT_LOAD_FAULT);
    expect("V: store to page 15, the bit in field 0", look(MPT_STORE, 0x4003f000), MPT_STORE_FAULT);
    expect("V: check", mpt_sound(PAW, FIRST, words, count, slots).word, MPT_NOT_SOUND);
    struct table table = {PAW, FIRST.value, count / PAGE_ENTRIES, words, slots};
    for (int bit = 0; bit < 64; bit++) {
        words[512] = UINT64_C(0x2222222222222222) | UINT64_C(1) << bit;
        second_walk(&table, slots[0], 0x40000, 16, reads);
        for (uint64_t nth = 0; nth < 16; nth++) {
            right += look(MPT_LOAD, 0x40000000 + nth * PAGE) == (bit % 4 > 1 ? MPT_LOAD_FAULT : MPT_FINE);
            second += reads[nth] == (bit % 4 > 1 ? FAULT : words[512] >> nth * 4 & 3);
        }
    }
    expect("V: loads of 16 pages with each bit set in turn, right", right, 64 * 16);
    expect("V: the same by the second walk", second, 64 * 16);
    words[512] = words[514] = words[515] = 0x2;
    memory("V");
}

/* Document 02, item 6: "An edit asking for rwx in slots 1 to 7 is refused with 10, tested after 5 and before 6. Slot 0 keeps it." */
static uint64_t edit_other(uint64_t slot, uint64_t start, uint64_t length, mpt_permission permission)
{
    return mpt_edit(PAW, FIRST, words, count, slots, mpt_to_slot(slot), mpt_to_address(start), length, permission, LIMIT).word;
}

static void case_w(void)
{
    new_domain(PAGES);
    for (uint64_t slot = 1; slot < MPT_SLOTS; slot++) {
        mpt_opened answer = mpt_open(PAW, FIRST, words, count, slots, mpt_to_slot(slot), mpt_to_sdid(slot == 1 ? 0 : slot + 5));
        expect("W: the next slot opened", mpt_write_opened(slots, mpt_to_slot(slot), answer), 1);
        expect("W: rwx in it", edit_other(slot, 0x40000000, 0x1000, MPT_RWX), MPT_NO_WRITE_EXECUTE);
    }
    made("W: rwx in slot 0", page(0x40000000, MPT_RWX), 544, 1, MPT_FENCE_DOMAIN);
    expect("W: fetch", look(MPT_FETCH, 0x40000000), MPT_FINE);
    expect("W: store", look(MPT_STORE, 0x40000000), MPT_FINE);
    expect("W: in slot 1 on a lent page", edit_other(1, 0x8000f000, 0x1000, MPT_RWX), MPT_NO_WRITE_EXECUTE);
    expect("W: in slot 0 on a lent page", edit_other(0, 0x8000f000, 0x1000, MPT_RWX), MPT_MEETS_LENT);
    expect("W: in slot 1, not whole pages", edit_other(1, 0x8000f000, 0x800, MPT_RWX), MPT_BAD_RANGE);
    /* 544 stores, all, and the fence of domain 0, as mpt.h has the bits */
    expect("W: rx in slot 1", edit_other(1, 0x40000000, 0x1000, MPT_RX), UINT64_C(544) << 18 | 1 << 10 | 1 << 9 | 1 << 8);
    memory("W");
}

/* Document 02, item 13: "no page open to two domains, no table page open to any"; and less, so that what none may write may be shared. */
static void apart(const char *what, uint64_t sharing, uint64_t strict)
{
    expect(what, mpt_apart(PAW, FIRST, words, count, slots, MPT_SHARING).word, sharing);
    expect(what, mpt_apart(PAW, FIRST, words, count, slots, MPT_STRICT).word, strict);
}

static void case_x(void)
{
    /* page 0x40000, slots 0 and 1; page 0x80000, which is slot 0's root, and slot 1 */
    static const uint64_t shared = UINT64_C(0x4000010100), table = UINT64_C(0x8000001300), written = 1 << 10;
    new_domain(PAGES);
    mpt_opened other = mpt_open(PAW, FIRST, words, count, slots, mpt_to_slot(1), mpt_to_sdid(0));
    expect("X: slot 1 opened", mpt_write_opened(slots, mpt_to_slot(1), other), 1);
    apart("X: nothing is open", MPT_FINE, MPT_FINE);
    made("X: rw in slot 0", page(0x40000000, MPT_RW), 544, 1, MPT_FENCE_DOMAIN);
    apart("X: rw to one", MPT_FINE, MPT_FINE);
    expect("X: rx in slot 1", edit_other(1, 0x40000000, 0x1000, MPT_RX), UINT64_C(544) << 18 | 1 << 10 | 1 << 9 | 1 << 8);
    apart("X: rw to one and rx to the other", shared | written, shared | written);
    made("X: rx in slot 0", page(0x40000000, MPT_RX), 1, 1, MPT_FENCE_ADDRESS);
    apart("X: rx to both", MPT_FINE, shared);
    made("X: none in slot 0", page(0x40000000, MPT_NONE), 32, 1, MPT_FENCE_DOMAIN);
    apart("X: rx to one", MPT_FINE, MPT_FINE);
    /* entry 64 of slot 1's root: the piece of the lent pages rx, and then rw */
    words[512 + 64] = UINT64_C(0x600000000001);
    apart("X: a table page rx", MPT_FINE, table);
    words[512 + 64] = UINT64_C(0x600000000002);
    apart("X: a table page rw", table | written, table | written);
    words[512 + 64] = 0;
    expect("X: a strength that is none", mpt_apart(29, FIRST, words, count, slots, mpt_to_strength(2)).word, MPT_OUTSIDE_KIND);
    expect("X: a broken frame", mpt_apart(29, FIRST, words, count, slots, MPT_STRICT).word, MPT_BAD_FRAME);
    slots[7] = slots[1];
    apart("X: one register in two slots", MPT_NOT_SOUND, MPT_NOT_SOUND);
    slots[7] = 0;
    memory("X");
}

static void other_calls(void)
{
    expect("check", mpt_sound(PAW, FIRST, words, count, slots).word, MPT_FINE);
    expect("check of a broken frame", mpt_sound(29, FIRST, words, count, slots).word, MPT_BAD_FRAME);
    mpt_looked nobody = mpt_lookup(PAW, FIRST, words, count, mpt_to_register(0), mpt_to_privilege(2), MPT_LOAD, mpt_to_address(0));
    expect("a privilege that is none", mpt_lookup_refused(nobody), MPT_OUTSIDE_KIND);
    expect("a permission that is none", mpt_refused(page(0, mpt_to_permission(4))), MPT_OUTSIDE_KIND);
    expect("open a slot in use", mpt_refused(mpt_open(PAW, FIRST, words, count, slots, SLOT, mpt_to_sdid(6))), MPT_BAD_SLOT);
    mpt_looked empty = mpt_lookup_slot(PAW, FIRST, words, count, slots, mpt_to_slot(1), MPT_MACHINE, MPT_LOAD, mpt_to_address(0));
    expect("look in an empty slot", mpt_lookup_refused(empty), MPT_BAD_SLOT);
    mpt_closed answer = mpt_close(PAW, FIRST, words, count, slots, SLOT);
    expect("close: fence", mpt_fence(answer), MPT_FENCE_DOMAIN);
    expect("close: of SDID", mpt_fence_sdid(answer).value, 5);
    words[32] = UINT64_C(5) << 44;
    expect("check of a TYPE 5 entry", mpt_sound(PAW, FIRST, words, count, slots).word, MPT_NOT_SOUND);
    memory("other calls");
}

/* The library's version is a number of the header's, not of document 01. */
static void version(void)
{
    say("version: ");
    say_hex(mpt_version());
    if (mpt_version() != MPT_VERSION) {
        wrong++;
        say(" WRONG, mpt.h says ");
        say_hex(MPT_VERSION);
    }
    put('\n');
}

uint64_t bench_cases(void)
{
    version();
    cases_a_to_e();
    cases_f_to_h();
    cases_i_to_k();
    case_v();
    other_calls();
    case_w();
    case_x();
    return wrong;
}
