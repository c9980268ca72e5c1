/* A watchdog resets the board at odd moments of a call that nothing traps, and of the same call made again. */
#include "test.h"

enum { ROUNDS = 60, CUTS = 2 };

static void measure(void)
{
    copy_words(TABLE, KEPT->whole.before);
    uint64_t from = ticks();
    make_plain();
    KEPT->whole.ticks = ticks() - from;
}

/* What the reset left must be the first stores of the call's list: up to the last one that can be seen. */
static void check_cut(void)
{
    static struct store list[MOST_STORES];
    struct table found = table;
    found.words = KEPT->found;
    uint64_t count = list_of(&found, list), seen = 0;
    for (uint64_t k = 0; k < count; k++)
        if (TABLE[list[k].at] == list[k].word && KEPT->found[list[k].at] != list[k].word)
            seen = k + 1;
    KEPT->resets++;
    KEPT->all++;
    same_words(KEPT->found, list, seen);
    if (seen > 0 && seen < count)
        KEPT->middle++;
}

/* One call, with a reset at some moment of it, unless it has been cut often enough. Returns when it is whole. */
static void make_to_the_end(void)
{
    static struct store list[MOST_STORES];
    struct kept *kept = KEPT;
    uint64_t count = list_of(&table, list);
    watched = (struct watched){list, count, count, NEVER, NOTHING, EDITED}; /* nothing traps; this only says which stores are due */
    copy_words(kept->found, TABLE);
    kept->pending = 1;
    __asm__ volatile("fence rw, rw" ::: "memory");
    if (kept->step < CUTS)
        start_timer(1 + (kept->round * 7919 + kept->step * 104729) % kept->whole.ticks);
    uint64_t answer = make_plain();
    stop_timer();
    kept->pending = 0;
    check_answer(answer, list, count);
    check_end(answer);
}

void watchdog(void)
{
    struct kept *kept = KEPT;
    phase = ", watchdog";
    if (kept->whole.ticks == 0)
        measure();
    for (; kept->round < ROUNDS; kept->round++) {
        if (kept->pending) {
            check_cut();
            kept->step++;
        } else {
            copy_words(TABLE, kept->whole.before);
            kept->step = 0;
        }
        make_to_the_end();
    }
}

void say_watchdog(void)
{
    say("watchdog: ");
    say_number(KEPT->all);
    say(" resets at odd moments of ");
    say_number(ROUNDS * SCENARIOS);
    say(" calls, ");
    say_number(KEPT->middle);
    say(" of them between two stores; each start found the first stores of the list, and the call was finished\n");
    if (KEPT->all < ROUNDS * SCENARIOS / 2 || KEPT->middle < ROUNDS * SCENARIOS / 20)
        fail("too few resets to show anything: ", KEPT->all, ", between two stores ", KEPT->middle);
}
