/* The board is reset when exactly k stores of a call are made, for every k from none to all. The next start finds those and no others,
 * makes the same call again, each store trapped, and ends as the uncut call did. */
#include "test.h"

static struct store list[MOST_STORES];

/* Nothing is owed after an open that was cut: another call is made as if the open had never been, and then undone here. */
static void make_instead(void)
{
    copy_words(KEPT->found, TABLE);
    tried = &scenario->instead;
    size_t count = list_of(&table, list);
    if (count < PAGE_ENTRIES || list[0].at != KEPT->whole.list[0].at)
        fail("does not take the page of the open: word ", list[0].at, ", stores ", count);
    make_trapped(list, count, NEVER, NOTHING);
    same_words(KEPT->found, list, count);
    copy_words(TABLE, KEPT->found);
    tried = &scenario->tried;
}

/* What the last start left: exactly the first stores, and the slots as they were. Then the call again. */
static void after_cut(void)
{
    struct kept *kept = KEPT;
    kept->resets++;
    kept->pending = 0;
    same_words(kept->whole.before, kept->whole.list, kept->step);
    same_slots();
    if (scenario->instead.call)
        make_instead();
    check_end(make_trapped(list, list_of(&table, list), NEVER, GOVERNED));
    kept->step++;
}

void every_cut(void)
{
    struct kept *kept = KEPT;
    phase = ", cut";
    if (kept->pending)
        after_cut();
    if (kept->step <= kept->whole.count) {
        copy_words(TABLE, kept->whole.before);
        kept->pending = 1;
        /* the first call makes the stores of the uncut one, after each of which the reading was looked at */
        make_trapped(kept->whole.list, kept->whole.count, kept->step, NOTHING);
        fail("the board was not reset: ", kept->step, ", stores ", kept->whole.count);
    }
    say("  ");
    say(scenario->name);
    say(": stores ");
    say_number(kept->whole.count);
    say(", cuts ");
    say_number(kept->resets);
    put('\n');
}
