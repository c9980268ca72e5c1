/* How many instructions a call retires on the largest table, by the counter minstret, which the emulator keeps exactly (-icount shift=0). */
#include "worst.h"

/* docs/BOARD.md promises that no call takes more. */
enum { MOST_INSTRUCTIONS = 1500000, MOST_FOR_APART = 5000000 };

static struct store list[MOST_STORES];
static uint64_t answer;

static uint64_t retired(void)
{
    uint64_t count;
    __asm__ volatile("csrr %0, minstret" : "=r"(count)::"memory");
    return count;
}

/* The counter must count: 500 times round a loop of two instructions, and the one that reads it again. */
static void check_counter(void)
{
    uint64_t from, to, times = 500;
    __asm__ volatile("csrr %0, minstret\n1: addi %2, %2, -1\n bnez %2, 1b\n csrr %1, minstret" : "=&r"(from), "=&r"(to), "+r"(times));
    if (to - from != 1001)
        fail("minstret does not count instructions: ", from, ", then ", to);
}

/* One call: what it retires from its first instruction to its return. */
static uint64_t count_call(int which, const uint64_t arguments[10])
{
    uint64_t from = retired();
    call_plain(RETURN, arguments);
    uint64_t around = retired() - from - 1;
    from = retired();
    answer = call_plain(which, arguments);
    return retired() - from - around;
}

static uint64_t count_edit(const struct edit *edit, uint64_t limit)
{
    return count_call(EDIT, (uint64_t[10]){LARGEST, edit->slot, edit->start, edit->length, edit->permission, limit});
}

/* The longest that were seen; of an edit that was cut, up to the link of its new page, and when nothing is left to store. */
static uint64_t longest[CALLS], longest_retry, longest_rest, widest;
static uint64_t nothing, roots; /* a check with no slot open, and of eight roots with no L1 page */

static void keep_longest(int which, uint64_t instructions)
{
    if (instructions > longest[which])
        longest[which] = instructions;
    uint64_t most = which == APART ? MOST_FOR_APART : MOST_INSTRUCTIONS;
    if (instructions > most)
        fail("takes more instructions than docs/BOARD.md says: ", instructions, ", at most ", most);
}

/* The edit must be made as the second program says, or its count would show nothing. */
static uint64_t count_whole_edit(const struct edit *edit)
{
    uint64_t count = second_edit(&largest, edit, list), instructions = count_edit(edit, MOST_STORES);
    mpt_edited edited = {answer};
    if (mpt_refused(edited) || !mpt_all(edited) || mpt_stores(edited) != count)
        fail("the edit is not made whole: answer ", answer, ", in the list ", count);
    for (uint64_t k = 0; k < count; k++)
        if (TABLE[list[k].at] != list[k].word)
            fail("the edit leaves another word: ", list[k].at, ", it is ", TABLE[list[k].at]);
    keep_longest(EDIT, instructions);
    uint64_t rest = count_edit(edit, MOST_STORES);
    if (rest > longest_rest)
        longest_rest = rest;
    return count;
}

/* A call that was cut in a new page begins that page again. How long is it from the call to the page's link? The limit stops the call there;
 * behind it the call would go on to see whether there is more to store. */
static void count_retries(const struct shape *shape)
{
    struct edit edit = make_shape(shape);
    uint64_t count = count_whole_edit(&edit);
    for (uint64_t k = PAGE_ENTRIES; k < count; k++) {
        if (list[k].word >> 44 != 4)
            continue;
        make_shape(shape);
        count_edit(&edit, k - PAGE_ENTRIES);
        uint64_t retry = count_edit(&edit, PAGE_ENTRIES);
        if (retry > longest_retry) {
            longest_retry = retry;
            KEPT->retry = (struct retry){*shape, edit, k - PAGE_ENTRIES, list[k].at, {0}};
        }
    }
}

static void count_edits(void)
{
    struct edit edit = make_widest();
    if (count_whole_edit(&edit) != MOST_STORES)
        fail("not as many stores as an edit can have: answer ", answer, ", of ", MOST_STORES);
    widest = longest[EDIT];
    for (int n = 0; n < 3 * 3 * 16; n++)
        count_retries(&(struct shape){n % 3, n / 3 % 3, n / 9 & 1, n / 18 & 1, n / 36 & 1, n / 72 & 1});
    KEPT->retry.start[0] = longest[SOUND] + longest_retry;
    KEPT->retry.start[1] = longest[SOUND] + (longest_rest > longest_retry ? longest_rest : longest_retry);
}

/* Every kind of access, by an L1 page and by pieces. */
static void count_lookups(void)
{
    for (uint64_t kind = MPT_FETCH.value; kind <= MPT_UPDATE_STORE.value; kind++)
        for (uint64_t page = 0; page < 4; page++) {
            uint64_t top = (UINT64_C(1) << 34) - PAGE * (page + 1), low = page * PIECE_PAGES * PAGE;
            uint64_t a[10] = {LARGEST, MPT_SUPERVISOR.value, kind, top};
            a[4] = KEPT->slots[WORST_SLOT];
            keep_longest(LOOKUP, count_call(LOOKUP, a));
            a[7] = low;
            keep_longest(LOOKUP, count_call(LOOKUP, a));
        }
}

static void count_other_calls(void)
{
    uint64_t a[10] = {LARGEST, WORST_SLOT, 63};
    open_roots(7);
    fill_up(6, 1);
    keep_longest(OPEN, count_call(OPEN, a));
    if (answer != REGISTER(63, FIRST + LARGEST_PAGES - 1))
        fail("open answers ", answer, ", the last page is ", FIRST + LARGEST_PAGES - 1);
    open_roots(0);
    nothing = count_call(SOUND, a);
    open_roots(8);
    roots = count_call(SOUND, a);
    fill_up(WORST_SLOT, 0);
    keep_longest(SOUND, count_call(SOUND, a));
    if (answer != MPT_FINE)
        fail("the largest table is not sound: ", answer, ", slots ", 8);
    keep_longest(CLOSE, count_call(CLOSE, a));
    if (mpt_refused((mpt_closed){answer}))
        fail("close is refused: ", answer, ", slot ", WORST_SLOT);
    count_lookups();
    fill_apart();
    for (a[5] = MPT_SHARING.value; a[5] <= MPT_STRICT.value; a[5]++) {
        keep_longest(APART, count_call(APART, a));
        if (answer != MPT_FINE)
            fail("domains that are kept apart are not found so: ", answer, ", strength ", a[5]);
    }
}

static void say_counts(void)
{
    static const char *const names[CALLS] = {"lookup ", ", open ", ", close ", ", edit ", ", sound ", ", apart "};
    say("instructions, 8 roots and 248 L1 pages, PAW 34: ");
    for (int which = 0; which < CALLS; which++) {
        say(names[which]);
        say_number(longest[which]);
    }
    say("; edit of 1,536 stores ");
    say_number(widest);
    say("; edit again, up to the link of its new page ");
    say_number(longest_retry);
    say(", with nothing left to store ");
    say_number(longest_rest);
    say("; a check ");
    say_number(nothing);
    say(", for each root ");
    say_number((roots - nothing) / 8);
    say(" and for each L1 page ");
    say_number((longest[SOUND] - roots) / 248);
    say(" more\n");
}

void count_instructions(void)
{
    phase = "counts";
    check_counter();
    count_other_calls();
    count_edits();
    say_counts();
}
