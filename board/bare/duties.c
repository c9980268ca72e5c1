/* What a firmware owes (docs/BOARD.md, `What the caller owes`), watched at each of its stores and fences. */
#include "test.h"

static struct store list[MOST_STORES];
static uint64_t events, reset_at; /* stores and fences, and before which of them the board is reset */
static uint64_t fence_due;        /* what the edit under way asks for */

static uint64_t sdid_of(uint64_t slot)
{
    return FIRMWARE->slots[slot] >> 54 & 63;
}

static const struct plan *step(void)
{
    return &plan[KEPT->nth];
}

/* The board may be reset before each store and each fence. */
static void event(void)
{
    if (events == reset_at)
        reset();
    events++;
}

/* 10, rwx in slots 1 to 7, and 6, a permission on the lent pages: for these alone edits of the plan are refused. */
int edit_is_refused(const struct edit *edit)
{
    uint64_t lent = (uint64_t)FIRST * PAGE, size = PAGES * PAGE;
    return (edit->permission == RWX && edit->slot != 0) ||
           (edit->permission != NONE && edit->start < lent + size && lent < edit->start + edit->length);
}

/* The stores of the edit that the record names; none if it is refused. After a reset, whole or not, the domain is fenced. */
static void expect_edit(int after_reset)
{
    const struct firmware *kept = FIRMWARE;
    struct edit edit = {kept->slot, kept->start, kept->length, kept->permission};
    uint64_t count = edit_is_refused(&edit) ? 0 : second_edit(&table, &edit, list);
    watched = (struct watched){list, count, 0, NEVER, GOVERNED, edit.slot};
    fence_due = after_reset ? MPT_FENCE_DOMAIN : fence_of(&edit, list, count);
}

static void table_store(uint64_t address, uint64_t word)
{
    if (!FIRMWARE->under_way && watched.made == watched.count) {
        if (step()->what != OPEN_SLOT)
            fail("a store to the table, and the record names no edit: step ", KEPT->nth, ", word ", word);
        watched = (struct watched){list, second_open(&table, list), 0, NEVER, NOTHING, step()->slot};
    }
    check_store(address, word);
    *(volatile uint64_t *)address = word;
    if (watched.reading)
        check_governed((address - (uint64_t)TABLE) / 8);
    watched.made++;
    if (FIRMWARE->under_way && KEPT->owed[sdid_of(watched.edited)] != MPT_FENCE_DOMAIN)
        KEPT->owed[sdid_of(watched.edited)] = fence_due;
}

static void slot_store(uint64_t slot, uint64_t word)
{
    if (slot != step()->slot || step()->what != (word ? OPEN_SLOT : CLOSE_SLOT))
        fail("a slot that no step writes: ", slot, ", the word ", word);
    if (word == 0) {
        KEPT->owed[sdid_of(slot)] = MPT_FENCE_DOMAIN;
        return;
    }
    if (watched.made != PAGE_ENTRIES || word != REGISTER(step()->sdid, FIRST + list[0].at / PAGE_ENTRIES))
        fail("a register that no open gave: ", word, ", stores made ", watched.made);
    if (KEPT->owed[step()->sdid])
        fail("an SDID is used again before its fence: ", step()->sdid, ", slot ", slot);
}

static void record_store(uint64_t word)
{
    const struct firmware *kept = FIRMWARE;
    uint64_t owed = KEPT->owed[sdid_of(kept->slot)];
    if (word == 0) {
        if (kept->under_way && watched.made != watched.count)
            fail("the record is cleared before its edit is whole, stores made ", watched.made, ", in the list ", watched.count);
        if (kept->under_way && owed)
            fail("the record is cleared before the fence: SDID ", sdid_of(kept->slot), ", owed is kind ", owed);
        return;
    }
    if (step()->what != EDIT_RANGE || kept->slot != step()->slot || kept->start != step()->start || kept->length != step()->length ||
        kept->permission != step()->permission.value)
        fail("the record counts before it is whole: step ", KEPT->nth, ", it says start ", kept->start);
    if (owed)
        fail("another edit before the fence: SDID ", sdid_of(kept->slot), ", owed is kind ", owed);
    expect_edit(0);
}

static void done_store(uint64_t word)
{
    if (word != KEPT->nth + 1 || FIRMWARE->under_way)
        fail("the plan goes on too early: to step ", word, ", edit under way ", FIRMWARE->under_way);
    for (uint64_t sdid = 0; sdid < 64; sdid++)
        if (KEPT->owed[sdid])
            fail("a fence was forgotten: SDID ", sdid, ", kind ", KEPT->owed[sdid]);
    leave_user = 1;
}

static void ready_store(uint64_t word)
{
    uint64_t rest = FIRMWARE->under_way | FIRMWARE->done;
    for (int slot = 0; slot < 8; slot++)
        rest |= FIRMWARE->slots[slot];
    if (word == READY && rest)
        fail("ready before all is set up: ", rest, ", edit under way ", FIRMWARE->under_way);
    KEPT->power_on = word != READY; /* the board's flag is cleared then, not before */
}

static void kept_store(uint64_t *at, uint64_t word)
{
    struct firmware *kept = FIRMWARE;
    if (at == &kept->ready)
        ready_store(word);
    else if (kept->ready != READY)
        ; /* at the first start: looked at when it is ready */
    else if (at >= kept->slots && at < kept->slots + 8)
        slot_store(at - kept->slots, word);
    else if (at == &kept->under_way)
        record_store(word);
    else if (at == &kept->done)
        done_store(word);
    else if (kept->under_way)
        fail("the record is written while it counts: at ", (uint64_t)at, " the word ", word);
    *(volatile uint64_t *)at = word;
}

static void firmware_store(uint64_t address, uint64_t word)
{
    event();
    if (address - (uint64_t)TABLE < PAGES * PAGE)
        table_store(address, word);
    else if (address - (uint64_t)FIRMWARE < sizeof(struct firmware))
        kept_store((uint64_t *)address, word);
    else
        fail("a store outside the table, the stack and what is kept: to ", address, " the word ", word);
}

static void firmware_fence(uint64_t kind, uint64_t address, uint64_t sdid)
{
    event();
    if (kind == FENCE_ALL)
        for (int k = 0; k < 64; k++)
            KEPT->owed[k] = MPT_FENCE_NONE;
    else if (kind == MPT_FENCE_DOMAIN || (KEPT->owed[sdid] == kind && address == FIRMWARE->start))
        KEPT->owed[sdid] = MPT_FENCE_NONE;
}

uint64_t run_firmware(uint64_t at)
{
    const uint64_t arguments[10] = {(uint64_t)FIRMWARE, (uint64_t)TABLE, KEPT->power_on};
    events = 0;
    reset_at = at;
    on_store = firmware_store;
    on_fence = firmware_fence;
    watched = (struct watched){list, 0, 0, NEVER, NOTHING, EDITED};
    for (int sdid = 0; sdid < 64; sdid++)
        if (KEPT->owed[sdid])
            KEPT->owed[sdid] = MPT_FENCE_DOMAIN;
    if (!KEPT->power_on && FIRMWARE->ready == READY && FIRMWARE->under_way)
        expect_edit(1);
    uint64_t answer = call_user((uintptr_t)firmware, arguments, USER_STACK + USER_STACK_BYTES / 8);
    if (FIRMWARE->done != KEPT->nth + 1)
        fail("stops before its step is made: answer ", answer, ", done ", FIRMWARE->done);
    return events;
}
