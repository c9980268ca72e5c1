/* Runs what TEST and PHASES name, through all resets; `PASS` at the end, or one line `FAIL ..`. */
#include "test.h"

enum { SINGLE_CALLS, WHOLE_FIRMWARE, COUNTS };
#ifndef TEST
#define TEST SINGLE_CALLS
#endif
/* Beside the uncut call or step, which comes first. */
enum { UNCUT, CUTS = 1, WATCHDOG = 2 };
#ifndef PHASES
#define PHASES CUTS
#endif
/* The scenarios that are tried; of the firmware, the first step that is cut. */
#ifndef FROM
#define FROM 0
#endif
#ifndef TO
#define TO SCENARIOS
#endif
#define MAGIC UINT64_C(0x6d70742d74657374)

static void begin(uint64_t phase)
{
    KEPT->phase = phase;
    KEPT->round = KEPT->step = KEPT->pending = KEPT->resets = KEPT->whole.ticks = 0;
}

static void try_scenario(void)
{
    enter(KEPT->nth);
    if (KEPT->phase == UNCUT) {
        every_store();
        begin(CUTS);
    }
    if (KEPT->phase == CUTS) {
        if (PHASES & CUTS)
            every_cut();
        begin(WATCHDOG);
    }
    if (PHASES & WATCHDOG)
        watchdog();
}

static void single_calls(void)
{
    for (; KEPT->nth < TO; KEPT->nth++) {
        try_scenario();
        begin(UNCUT);
    }
    if (PHASES & WATCHDOG)
        say_watchdog();
    say_stack();
}

static void counts(int first)
{
    if (first)
        count_instructions();
    watchdog_period();
}

void main(void)
{
    int first = KEPT->magic != MAGIC;
    protect();
    if (first) {
        KEPT->nth = TEST == SINGLE_CALLS ? FROM : 0;
        begin(UNCUT);
        KEPT->magic = MAGIC;
    }
    if (TEST == COUNTS)
        counts(first);
    else if (TEST == SINGLE_CALLS)
        single_calls();
    else if (PHASES & WATCHDOG)
        firmware_watchdog();
    else
        firmware_cuts(FROM);
    say("PASS\n");
    stop(0);
}
