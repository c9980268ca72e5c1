/* A small firmware around the library. docs/BOARD.md tells why each store stands where it does; here it is run, and reset before each one
 * of its stores and fences. */
#include "firmware.h"

static const mpt_page first = {FIRST_PAGE};

/* One store of 8 bytes, behind every store before it. */
static void put_word(uint64_t *at, uint64_t word)
{
    __atomic_store_n(at, word, __ATOMIC_RELEASE);
}

/* A reset in it leaves the slot empty, and nothing is owed. */
static uint64_t open_slot(struct firmware *kept, uint64_t *words, mpt_slot slot, mpt_sdid sdid)
{
    mpt_opened answer = mpt_open(PAW, first, words, COUNT, kept->slots, slot, sdid);
    if (mpt_refused(answer))
        return mpt_refused(answer);
    return mpt_write_opened(kept->slots, slot, answer) ? 0 : MPT_BAD_SLOT;
}

/* No hart runs in the domain any more. A reset before the fence leaves it to start_up. */
static uint64_t close_slot(struct firmware *kept, const uint64_t *words, mpt_slot slot)
{
    mpt_closed answer = mpt_close(PAW, first, words, COUNT, kept->slots, slot);
    mpt_sdid sdid = mpt_write_closed(kept->slots, slot, answer);
    if (!mpt_refused(answer))
        fence_domain(sdid);
    return mpt_refused(answer);
}

static mpt_edited make_recorded(const struct firmware *kept, uint64_t *words)
{
    return mpt_edit(PAW, first, words, COUNT, kept->slots, mpt_to_slot(kept->slot), mpt_to_address(kept->start), kept->length,
                    mpt_to_permission(kept->permission), MPT_MOST_STORES);
}

static uint64_t edit_range(struct firmware *kept, uint64_t *words, mpt_slot slot, mpt_address start, uint64_t length,
                           mpt_permission permission)
{
    put_word(&kept->slot, slot.value);
    put_word(&kept->start, start.value);
    put_word(&kept->length, length);
    put_word(&kept->permission, permission.value);
    put_word(&kept->under_way, 1); /* the record is whole, and counts from here on */
    mpt_edited answer = make_recorded(kept, words);
    if (mpt_fence(answer) == MPT_FENCE_ADDRESS)
        fence_address(start, mpt_fence_sdid(answer));
    else if (mpt_fence(answer) == MPT_FENCE_DOMAIN)
        fence_domain(mpt_fence_sdid(answer));
    put_word(&kept->under_way, 0); /* the edit is whole and fenced, or was refused */
    return mpt_refused(answer);
}

/* The table itself needs nothing: a page is written before anything leads to it. */
static void first_start(struct firmware *kept)
{
    put_word(&kept->ready, 0);
    for (int slot = 0; slot < MPT_SLOTS; slot++)
        put_word(&kept->slots[slot], 0);
    put_word(&kept->under_way, 0);
    put_word(&kept->done, 0);
    put_word(&kept->ready, READY);
}

/* At every start, before any other call. Returns 0 if the table is damaged: then no domain may run. */
static int start_up(struct firmware *kept, uint64_t *words, uint64_t power_on)
{
    if (power_on || kept->ready != READY)
        first_start(kept);
    if (!mpt_is_sound(mpt_sound(PAW, first, words, COUNT, kept->slots)))
        return 0;
    if (kept->under_way) {
        mpt_edited answer = make_recorded(kept, words);
        (void)answer; /* if it is refused, and the same library began it, it was refused before the reset too, and nothing has changed */
    }
    fence_all(); /* also for what was made before the reset, and not fenced */
    put_word(&kept->under_way, 0);
    return 1;
}

const struct plan plan[STEPS] = {
    {OPEN_SLOT, 0, 5, 0, 0, MPT_NONE},
    {EDIT_RANGE, 0, 0, 0x40000000, 0x1000, MPT_RW},
    {EDIT_RANGE, 0, 0, 0x40003000, 0x1000, MPT_RX}, /* one store, and a fence of one address */
    {OPEN_SLOT, 1, 0, 0, 0, MPT_NONE},
    {EDIT_RANGE, 1, 0, 0xc0200000, 0x200000, MPT_RW},
    {EDIT_RANGE, 1, 0, 0xc0200000, 0x1000, MPT_RWX}, /* slot 0 alone may have it: refused */
    {EDIT_RANGE, 1, 0, 0x8000f000, 0x1000, MPT_RW},  /* a lent page: refused */
    {CLOSE_SLOT, 1, 0, 0, 0, MPT_NONE},
    {OPEN_SLOT, 1, 0, 0, 0, MPT_NONE},                  /* the same SDID once more */
    {EDIT_RANGE, 0, 0, 0x40000000, 0x40000000, MPT_RW}, /* the L1 page is unlinked */
};

static uint64_t make_step(struct firmware *kept, uint64_t *words, const struct plan *step)
{
    mpt_slot slot = mpt_to_slot(step->slot);
    if (step->what == OPEN_SLOT)
        return open_slot(kept, words, slot, mpt_to_sdid(step->sdid));
    if (step->what == CLOSE_SLOT)
        return close_slot(kept, words, slot);
    return edit_range(kept, words, slot, mpt_to_address(step->start), step->length, step->permission);
}

/* A step that was made before a reset, but not counted, is made again: an edit then stores nothing, an open finds its slot in use, a close
 * finds it empty. A refusal changes nothing; a firmware would tell of it here. */
int firmware(struct firmware *kept, uint64_t *words, uint64_t power_on)
{
    if (!start_up(kept, words, power_on))
        return 0;
    while (kept->done < STEPS) {
        (void)make_step(kept, words, &plan[kept->done]);
        put_word(&kept->done, kept->done + 1);
    }
    return 1;
}
