/* The watchdog's period, on the edit that takes longest to make again. A start that is given less than the check of the table and the retry
 * up to the link of the new page never links it, however often it is tried. One that is given what the longest start takes ends. */
#include "worst.h"

enum { INSTRUCTIONS_A_TICK = 100, TRIES = 20 }; /* with -icount shift=0 an instruction takes 1 ns, and a tick is 100 ns */
enum { TOO_SHORT, LONG_ENOUGH, PERIODS };
enum { MOST_RESETS = 2 }; /* the edit has one more page to link */
static const uint64_t percent[PERIODS] = {95, 105};

static uint64_t period(void)
{
    return KEPT->retry.start[KEPT->round] * percent[KEPT->round] / 100;
}

static uint64_t edit(uint64_t limit)
{
    const struct edit *edit = &KEPT->retry.edit;
    return call_plain(EDIT, (uint64_t[10]){LARGEST, edit->slot, edit->start, edit->length, edit->permission, limit});
}

/* What the start after a reset makes: the check, and the edit again. The board is reset when the period is over. */
static void start(void)
{
    start_timer(period() / INSTRUCTIONS_A_TICK);
    call_plain(SOUND, (uint64_t[10]){LARGEST});
    mpt_edited answer = {edit(MOST_STORES)};
    stop_timer();
    if (mpt_refused(answer) || !mpt_all(answer))
        fail("the edit is not made whole: answer ", answer.word, ", period ", period());
}

static void say_period(const char *end)
{
    say(KEPT->round == TOO_SHORT ? "watchdog's period: at " : "; at ");
    say_number(period());
    say(" instructions ");
    say(end);
}

/* Goes on where the last start stopped, and returns when the edit is whole, or was tried often enough. */
static void try_period(void)
{
    struct kept *kept = KEPT;
    if (kept->pending)
        kept->resets++;
    else {
        kept->retry.edit = make_shape(&kept->retry.shape);
        edit(kept->retry.made);
        kept->resets = 0;
        kept->pending = 1;
    }
    if (kept->round == TOO_SHORT && kept->resets == TRIES) {
        if (TABLE[kept->retry.link] >> 44 == 4)
            fail("linked within a period that is too short: ", period(), ", word ", kept->retry.link);
        say_period("its page is not linked after 20 resets");
    } else {
        start();
        if (kept->round == TOO_SHORT || kept->resets > MOST_RESETS)
            fail("the period is not what it was taken for: ", period(), ", resets ", kept->resets);
        say_period("the edit is whole\n");
    }
    kept->pending = 0;
}

void watchdog_period(void)
{
    phase = "period";
    for (; KEPT->round < PERIODS; KEPT->round++)
        try_period();
}
