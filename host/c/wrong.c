/* Right with WRONG 0. With any other number one thing is mixed up that must not be, and no compiler may take it. */
#include "mpt.h"

static uint64_t words[2 * MPT_PAGE_WORDS], slots[MPT_SLOTS];
static uint64_t *const place = words;
static uint8_t bytes[2 * MPT_PAGE_BYTES];

void calls(mpt_page first, mpt_address address, mpt_slot slot, mpt_sdid sdid, mpt_register mmpt);
void calls(mpt_page first, mpt_address address, mpt_slot slot, mpt_sdid sdid, mpt_register mmpt)
{
    mpt_looked looked = mpt_lookup(32, first, words, 1024, mmpt, MPT_USER, MPT_LOAD, address);
    mpt_opened opened = mpt_open(32, first, words, 1024, slots, slot, sdid);
    mpt_edited edited = mpt_edit(32, first, words, 1024, slots, slot, address, MPT_PAGE_BYTES, MPT_RW, MPT_MOST_STORES);
    mpt_closed closed = mpt_close(32, first, words, 1024, slots, slot);
    mpt_checked checked = mpt_sound(32, first, place, MPT_WORDS(words), slots);
    mpt_tested tested = mpt_apart(32, first, words, 1024, slots, MPT_STRICT);
    uint64_t number = mpt_fault(looked) + mpt_refused(opened) + mpt_stores(edited) + mpt_fence(closed) + checked.word + tested.word + bytes[0];
    if (mpt_cut(edited))
        looked = mpt_lookup_slot(32, first, words, 1024, slots, slot, MPT_USER, MPT_LOAD, address);
    number += mpt_write_opened(slots, slot, opened);
    sdid = mpt_write_closed(slots, slot, closed);
#if WRONG == 1
    edited = mpt_edit(32, first, words, 1024, slots, slot, first, 4096, MPT_RW, 1);
#elif WRONG == 2
    edited = mpt_edit(32, address, words, 1024, slots, slot, address, 4096, MPT_RW, 1);
#elif WRONG == 3
    looked = mpt_lookup(32, address, words, 1024, mmpt, MPT_USER, MPT_LOAD, first);
#elif WRONG == 4
    opened = mpt_open(32, first, words, 1024, slots, sdid, slot);
#elif WRONG == 5
    opened = mpt_open(32, first, words, 1024, slots, slot, address);
#elif WRONG == 6
    opened = mpt_open(32, first, words, 1024, slots, slot, 5);
#elif WRONG == 7
    looked = mpt_lookup(32, first, words, 1024, mmpt, MPT_USER, MPT_LOAD, 0x40000000);
#elif WRONG == 8
    closed = mpt_close(32, 0x80000, words, 1024, slots, slot);
#elif WRONG == 9
    number = mpt_refused(looked);
#elif WRONG == 10
    if (!mpt_lookup(32, first, words, 1024, mmpt, MPT_USER, MPT_LOAD, address))
        number = 0;
#elif WRONG == 11
    number = mpt_allowed(edited);
#elif WRONG == 12
    number = mpt_stores(opened);
#elif WRONG == 13
    number = mpt_fence(opened);
#elif WRONG == 14
    number = mpt_refused(checked);
#elif WRONG == 15
    slots[0] = mpt_open(32, first, words, 1024, slots, slot, sdid);
#elif WRONG == 16
    number = mpt_write_opened(slots, slot, closed);
#elif WRONG == 17
    sdid = mpt_write_closed(slots, slot, opened);
#elif WRONG == 18
    address = sdid;
#elif WRONG == 19
    mpt_lookup(32, first, words, 1024, mmpt, MPT_USER, MPT_LOAD, address);
#elif WRONG == 20
    mpt_open(32, first, words, 1024, slots, slot, sdid);
#elif WRONG == 21
    mpt_close(32, first, words, 1024, slots, slot);
#elif WRONG == 22
    mpt_edit(32, first, words, 1024, slots, slot, address, MPT_PAGE_BYTES, MPT_RW, MPT_MOST_STORES);
#elif WRONG == 23
    mpt_sound(32, first, words, 1024, slots);
#elif WRONG == 24
    mpt_write_closed(slots, slot, closed);
#elif WRONG == 25
    looked = mpt_lookup(32, first, words, 1024, mmpt, MPT_LOAD, MPT_USER, address);
#elif WRONG == 26
    looked = mpt_lookup(32, first, words, 1024, mmpt, 0, MPT_LOAD, address);
#elif WRONG == 27
    looked = mpt_lookup(32, first, words, 1024, mmpt, MPT_USER, 1, address);
#elif WRONG == 28
    looked = mpt_lookup(32, first, words, 1024, mmpt, MPT_USER, MPT_RW, address);
#elif WRONG == 29
    looked = mpt_lookup(32, first, words, 1024, MPT_USER, mmpt, MPT_LOAD, address);
#elif WRONG == 30
    edited = mpt_edit(32, first, words, 1024, slots, slot, address, 4096, MPT_STORE, 1);
#elif WRONG == 31
    edited = mpt_edit(32, first, words, 1024, slots, slot, address, 4096, 2, 1);
#elif WRONG == 32
    edited = mpt_edit(32, first, words, 1024, slots, slot, address, 4096, 1536, MPT_RW);
#elif WRONG == 33
    edited = mpt_edit(32, first, words, 1024, slots, slot, address, MPT_RW, 4096, 1);
#elif WRONG == 34
    number = mpt_write_opened(slots, slot, edited);
#elif WRONG == 35
    sdid = mpt_write_closed(slots, slot, edited);
#elif WRONG == 36
    number = MPT_WORDS(place);
#elif WRONG == 37
    number = MPT_WORDS(bytes);
#elif WRONG == 38
    edited = mpt_edit(32, first, words, sizeof words, slots, slot, address, 4096, MPT_RW, 1);
#elif WRONG == 39
    looked = mpt_lookup(32, first, words, sizeof words, mmpt, MPT_USER, MPT_LOAD, address);
#elif WRONG == 40
    mpt_write_opened(slots, slot, mpt_open(32, first, words, 1024, slots, slot, sdid));
#elif WRONG == 41
    mpt_lookup_slot(32, first, words, 1024, slots, slot, MPT_USER, MPT_LOAD, address);
#elif WRONG == 42
    looked = mpt_lookup(32, first, words, 1024, slots[0], MPT_USER, MPT_LOAD, address);
#elif WRONG == 43
    looked = mpt_lookup(32, first, words, mmpt, 1024, MPT_USER, MPT_LOAD, address);
#elif WRONG == 44
    looked = mpt_lookup(32, first, words, 1024, slot, MPT_USER, MPT_LOAD, address);
#elif WRONG == 45
    looked = mpt_lookup_slot(32, first, words, 1024, slots, mmpt, MPT_USER, MPT_LOAD, address);
#elif WRONG == 46
    looked = mpt_lookup_slot(32, first, words, sizeof words, slots, slot, MPT_USER, MPT_LOAD, address);
#elif WRONG == 47
    closed = mpt_close(slot, first, words, 1024, slots, 32);
#elif WRONG == 48
    opened = mpt_open(32, first, words, 1024, slots, 0, sdid);
#elif WRONG == 49
    edited = mpt_edit(32, first, words, 1024, slots, 1, address, 4096, MPT_RW, slot);
#elif WRONG == 50
    number = mpt_write_opened(slots, sdid, opened);
#elif WRONG == 51
    sdid = mpt_write_closed(slots, 0, closed);
#elif WRONG == 52
    slots[0] = mpt_opened_register(opened);
#elif WRONG == 53
    number = mpt_cut(opened);
#elif WRONG == 54
    edited = mpt_edit(32, first, slots, 1024, words, slot, address, 4096, MPT_RW, 1);
#elif WRONG == 55
    tested = mpt_apart(32, first, words, 1024, slots, 1);
#elif WRONG == 56
    tested = mpt_apart(32, first, words, 1024, slots, MPT_RX);
#elif WRONG == 57
    mpt_apart(32, first, words, 1024, slots, MPT_SHARING);
#elif WRONG == 58
    number = mpt_refused(tested);
#elif WRONG == 59
    number = mpt_is_apart(checked);
#elif WRONG == 60
    number = mpt_is_sound(tested);
#elif WRONG == 61
    tested = mpt_apart(32, first, words, sizeof words, slots, MPT_STRICT);
#elif WRONG == 62
    address = mpt_apart_page(tested);
#elif WRONG != 0
#error "no such wrong version"
#endif
    slots[1] = number + tested.word + looked.word + opened.word + edited.word + sdid.value + slot.value + mmpt.value + address.value;
}
