/* The firmware, reset before each of its stores and fences; and by a watchdog at odd moments. */
#include "test.h"

enum { ROUNDS = 30, CUTS = 8 };

static void on_firmware(const uint64_t *slots)
{
    scenario = NULL;
    table = (struct table){PAW, FIRST, PAGES, TABLE, slots};
}

/* What a memory holds when the power comes on: this and that, also from days before. */
static void power_on(void)
{
    for (int k = 0; k < TRIED_WORDS; k++)
        TABLE[k] = OLD;
    *FIRMWARE = (struct firmware){READY, {REGISTER(5, FIRST), OLD}, 1, 0, OLD, PAGE, RWX, 3};
    for (int slot = 0; slot < 8; slot++)
        KEPT->slots[slot] = 0;
    KEPT->power_on = 1;
}

/* A step of the plan by the second program, on the slots of its own. */
static void make_planned(const struct plan *step)
{
    struct edit edit = {step->slot, step->start, step->length, step->permission.value};
    if (step->what == CLOSE_SLOT)
        KEPT->slots[step->slot] = 0;
    else if (step->what == OPEN_SLOT)
        make(&(struct step){OPEN, {step->slot, 0, 0, 0}, step->sdid});
    else if (!edit_is_refused(&edit))
        make(&(struct step){EDIT, edit, 0});
}

/* What a step finds, and how the domains read before it and after it. */
static void work_out(void)
{
    struct kept *kept = KEPT;
    struct whole *whole = &kept->whole;
    const struct plan *step = &plan[kept->nth];
    kept->found_firmware = *FIRMWARE;
    copy_words(whole->before, TABLE);
    on_firmware(kept->slots);
    read_all(kept->slots[step->slot], &whole->reads_before);
    read_all(kept->slots[1 - step->slot], &whole->reads_other);
    make_planned(step);
    read_all(kept->slots[step->slot], &whole->reads_after);
    whole->free_after = second_free_pages(&table);
    copy_words(TABLE, whole->before);
    on_firmware(FIRMWARE->slots);
}

static void check_step(void)
{
    const struct plan *step = &plan[KEPT->nth];
    check_reads("does not read as the plan says: the block from ", FIRMWARE->slots[step->slot], &KEPT->whole.reads_after);
    check_reads("another domain has changed: the block from ", FIRMWARE->slots[1 - step->slot], &KEPT->whole.reads_other);
    for (int slot = 0; slot < 8; slot++)
        if (FIRMWARE->slots[slot] != KEPT->slots[slot])
            fail("slot ", slot, " is ", FIRMWARE->slots[slot]);
    if (second_free_pages(&table) != KEPT->whole.free_after)
        fail("free pages ", second_free_pages(&table), ", by the plan ", KEPT->whole.free_after);
}

/* The step uncut: how many stores and fences it makes, from the start of the board on. */
static void uncut(void)
{
    struct kept *kept = KEPT;
    work_out();
    kept->events = run_firmware(~UINT64_C(0));
    check_step();
    copy_words(kept->whole.after, TABLE);
    kept->left_firmware = *FIRMWARE;
    kept->round += kept->events;
    kept->step = 0;
}

/* The board was reset: it starts again, and every fourth time is reset again. */
static void after_reset(void)
{
    struct kept *kept = KEPT;
    uint64_t again = kept->step * 31 % kept->events;
    kept->resets++;
    run_firmware(kept->pending++ == 1 && kept->step % 4 == 0 ? again : ~UINT64_C(0));
    kept->pending = 0;
    check_step();
    kept->step++;
}

/* Every step from this one on is cut; those before it are only made. */
void firmware_cuts(uint64_t from)
{
    static char name[] = "firmware, step 0";
    struct kept *kept = KEPT;
    phase = name;
    on_firmware(FIRMWARE->slots);
    if (kept->nth == 0 && !kept->pending)
        power_on();
    for (; kept->nth < STEPS; kept->nth++) {
        name[sizeof name - 2] = '0' + kept->nth;
        if (kept->pending)
            after_reset();
        else
            uncut();
        if (kept->nth >= from && kept->step < kept->events) {
            copy_words(TABLE, kept->whole.before);
            *FIRMWARE = kept->found_firmware;
            kept->power_on = kept->nth == 0;
            kept->pending = 1;
            run_firmware(kept->step);
            fail("the board was not reset: ", kept->step, ", stores and fences ", kept->events);
        }
        copy_words(TABLE, kept->whole.after);
        *FIRMWARE = kept->left_firmware;
    }
    say("firmware: ");
    say_number(STEPS);
    say(" steps, ");
    say_number(kept->round);
    say(" stores and fences, ");
    say_number(kept->resets);
    say(" resets, before each of them and some again in the start that followed; every start finished what was cut\n");
}

static void ignore(uint64_t kind, uint64_t address, uint64_t sdid)
{
    (void)kind, (void)address, (void)sdid;
}

/* The whole plan by the second program, and how long the firmware takes for it when nothing traps. */
static void measure(void)
{
    struct whole *whole = &KEPT->whole;
    power_on();
    on_firmware(KEPT->slots);
    for (int k = 0; k < STEPS; k++)
        make_planned(&plan[k]);
    read_all(KEPT->slots[0], &whole->reads_after);
    read_all(KEPT->slots[1], &whole->reads_other);
    whole->free_after = second_free_pages(&table);
    power_on();
    uint64_t from = ticks();
    if (!firmware(FIRMWARE, TABLE, 1))
        fail("does not start: done ", FIRMWARE->done, ", slot 0 is ", FIRMWARE->slots[0]);
    whole->ticks = ticks() - from;
}

/* From the power on to the plan's end, with resets at odd moments; pages may then be others than in the uncut run. */
static void plan_to_the_end(void)
{
    struct kept *kept = KEPT;
    const struct whole *whole = &kept->whole;
    if (kept->step++ < CUTS)
        start_timer(1 + (kept->round * 7919 + kept->step * 104729) % (whole->ticks / 3));
    int started = firmware(FIRMWARE, TABLE, 0);
    stop_timer();
    kept->pending = 0;
    on_firmware(FIRMWARE->slots);
    check_reads("does not read as the plan says: the block from ", FIRMWARE->slots[0], &whole->reads_after);
    check_reads("slot 1 does not read as the plan says: the block from ", FIRMWARE->slots[1], &whole->reads_other);
    if (!started || second_free_pages(&table) != whole->free_after)
        fail("started ", started, ", free pages ", second_free_pages(&table));
}

void firmware_watchdog(void)
{
    struct kept *kept = KEPT;
    phase = "firmware, watchdog";
    on_fence = ignore;
    if (kept->whole.ticks == 0)
        measure();
    for (; kept->round < ROUNDS; kept->round++) {
        if (kept->pending) {
            kept->resets++;
            kept->middle += FIRMWARE->ready == READY && FIRMWARE->under_way;
        } else {
            power_on();
            FIRMWARE->ready = 0; /* the board's flag of a power on is not asked here */
            kept->step = 0;
            kept->pending = 1;
        }
        plan_to_the_end();
    }
    say("firmware: ");
    say_number(kept->resets);
    say(" resets by a watchdog at odd moments of ");
    say_number(ROUNDS);
    say(" runs of the plan, ");
    say_number(kept->middle);
    say(" of them in an edit; each run ended as planned\n");
    if (kept->resets < 3 * ROUNDS || kept->middle < ROUNDS)
        fail("too few resets to show anything: ", kept->resets, ", in an edit ", kept->middle);
}
