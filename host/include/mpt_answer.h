/* Part of mpt.h, which includes it: numbers into their kinds, how many words an array has, a lookup by
 * slot, an answer's parts, and the slot after an open and a close. */
#ifndef MPT_ANSWER_H
#define MPT_ANSWER_H

#ifndef MPT_H
#error "include mpt.h"
#endif

#ifdef __cplusplus
extern "C" {
#endif

/* Numbers into their kinds. */

static inline mpt_page mpt_to_page(uint64_t number)
{
    mpt_page page = {number};
    return page;
}

static inline mpt_address mpt_to_address(uint64_t number)
{
    mpt_address address = {number};
    return address;
}

static inline mpt_slot mpt_to_slot(uint64_t number)
{
    mpt_slot slot = {number};
    return slot;
}

static inline mpt_sdid mpt_to_sdid(uint64_t number)
{
    mpt_sdid sdid = {number};
    return sdid;
}

/* Not of an empty slot, which holds no register: 0 is Bare, which allows every access. */
static inline mpt_register mpt_to_register(uint64_t value)
{
    mpt_register mmpt = {value};
    return mmpt;
}

/* For a code that came from elsewhere; each that is listed in mpt.h has its name there. */

static inline mpt_privilege mpt_to_privilege(uint64_t code)
{
    mpt_privilege privilege = {code};
    return privilege;
}

static inline mpt_kind mpt_to_kind(uint64_t code)
{
    mpt_kind kind = {code};
    return kind;
}

static inline mpt_permission mpt_to_permission(uint64_t code)
{
    mpt_permission permission = {code};
    return permission;
}

static inline mpt_strength mpt_to_strength(uint64_t code)
{
    mpt_strength strength = {code};
    return strength;
}

/* The page that holds an address. */
static inline mpt_page mpt_page_of(mpt_address address)
{
    return mpt_to_page(address.value / MPT_PAGE_BYTES);
}

/* The library is of this header's major version, and of its minor one or a later. */
static inline int mpt_version_fits(void)
{
    uint64_t library = mpt_version();
    return library >= MPT_VERSION && library >> 16 == MPT_VERSION_MAJOR;
}

/* May an access reach the address in the domain of a slot? As mpt_lookup under the register in the slot,
 * but a slot that is empty or above 7 is refused: MPT_BAD_SLOT, after 255 and MPT_BAD_FRAME. A slot that
 * holds something else of MODE 0, which no open gave, is MPT_BAD_REGISTER: no slot means Bare. */
#ifdef __clang__
#pragma clang diagnostic push
#pragma clang diagnostic ignored "-Wgcc-compat"
#endif
MPT_MUST_USE static inline mpt_looked mpt_lookup_slot(uint64_t paw, mpt_page first, const uint64_t *words, size_t count,
                                                      const uint64_t slots[8], mpt_slot slot, mpt_privilege privilege,
                                                      mpt_kind kind, mpt_address address) MPT_COUNTED(read_only);
#ifdef __clang__
#pragma clang diagnostic pop
#endif

static inline mpt_looked mpt_lookup_slot(uint64_t paw, mpt_page first, const uint64_t *words, size_t count,
                                         const uint64_t slots[8], mpt_slot slot, mpt_privilege privilege,
                                         mpt_kind kind, mpt_address address)
{
    uint64_t held = slot.value < MPT_SLOTS ? slots[slot.value] : 0;
    mpt_register mmpt = held >> 60 == 0 ? MPT_NO_REGISTER : mpt_to_register(held);
    mpt_looked answer = mpt_lookup(paw, first, words, count, mmpt, privilege, kind, address);
    if (held == 0 && answer.word == MPT_BAD_REGISTER)
        answer.word = MPT_BAD_SLOT;
    return answer;
}

/* A lookup's answer: exactly one of these three is not 0. */

static inline int mpt_allowed(mpt_looked answer)
{
    return answer.word == MPT_FINE;
}

/* The cause of the fault: 1 fetch, 5 load, 7 store. */
static inline uint64_t mpt_fault(mpt_looked answer)
{
    return answer.word > 256 ? answer.word - 256 : 0;
}

/* 1, 2 or 255, and of mpt_lookup_slot also 4. */
static inline uint64_t mpt_lookup_refused(mpt_looked answer)
{
    return answer.word < 256 ? answer.word : 0;
}

/* A check's answer. */
static inline int mpt_is_sound(mpt_checked answer)
{
    return answer.word == MPT_FINE;
}

/* Whether the domains are kept apart: exactly one of these three is not 0. */

static inline int mpt_is_apart(mpt_tested answer)
{
    return answer.word == MPT_FINE;
}

/* A page is at fault, which the five below tell. */
static inline int mpt_not_apart(mpt_tested answer)
{
    return answer.word >= 256;
}

/* 1, 3 or 255. */
static inline uint64_t mpt_apart_refused(mpt_tested answer)
{
    return answer.word < 256 ? answer.word : 0;
}

/* From bit 20 up, the page at fault; 2^64 - 1, which is no page, if none is. */
static inline mpt_page mpt_apart_page(mpt_tested answer)
{
    return mpt_to_page(mpt_not_apart(answer) ? answer.word >> 20 : ~UINT64_C(0));
}

/* Bit 9, whether it is a table page. */
static inline int mpt_apart_table(mpt_tested answer)
{
    return answer.word >> 9 & 1;
}

/* Bits 14:12: of a table page, a slot that may write it (strict: to which it is open); else the lower of two that
 * share a page: open to both, and one may write it (strict: open to both). MPT_SLOTS, which is no slot, if no page
 * is at fault. */
static inline mpt_slot mpt_apart_slot(mpt_tested answer)
{
    return mpt_to_slot(mpt_not_apart(answer) ? answer.word >> 12 & 7 : (uint64_t)MPT_SLOTS);
}

/* Bits 18:16, the higher of two slots that share a page; of a table page, and if no page is at fault, MPT_SLOTS. */
static inline mpt_slot mpt_apart_other(mpt_tested answer)
{
    int two = mpt_not_apart(answer) && !mpt_apart_table(answer);
    return mpt_to_slot(two ? answer.word >> 16 & 7 : (uint64_t)MPT_SLOTS);
}

/* Bit 10, whether the slot, or one of the two, may write the page. */
static inline int mpt_apart_written(mpt_tested answer)
{
    return answer.word >> 10 & 1;
}

/* The refusal's number or 255, and 0 if the call was made. */

static inline uint64_t mpt_open_refused(mpt_opened answer)
{
    return answer.word < 256 ? answer.word : 0;
}

static inline uint64_t mpt_close_refused(mpt_closed answer)
{
    return answer.word < 256 ? answer.word : 0;
}

static inline uint64_t mpt_edit_refused(mpt_edited answer)
{
    return answer.word < 256 ? answer.word : 0;
}

/* The register that an open made. If it was refused, MPT_NO_REGISTER, which every lookup refuses: 0 would
 * be Bare, which allows everything. */
static inline mpt_register mpt_opened_register(mpt_opened answer)
{
    return answer.word < 256 ? MPT_NO_REGISTER : mpt_to_register(answer.word);
}

/* Of an edit: bits 57:18, how many stores were made. */
static inline uint64_t mpt_stores(mpt_edited answer)
{
    return answer.word >> 18 & ((UINT64_C(1) << 40) - 1);
}

/* Of an edit: bit 9, whether those were all. 0 of a cut edit, and 0 of a refused one too, which would be
 * refused again and again: `while (!mpt_all(..))` never ends there. Whether to go on, mpt_cut says. */
static inline int mpt_all(mpt_edited answer)
{
    return answer.word >> 9 & 1;
}

/* Of an edit: whether the limit cut it, so that the same edit is to be made again. 0 of one that is whole,
 * and 0 of a refused one. */
static inline int mpt_cut(mpt_edited answer)
{
    return mpt_edit_refused(answer) == 0 && !mpt_all(answer);
}

/* The fence's kind, bits 11:10, and if it is not MPT_FENCE_NONE its SDID, bits 17:12. */

static inline uint64_t mpt_close_fence(mpt_closed answer)
{
    return answer.word >> 10 & 3;
}

static inline uint64_t mpt_edit_fence(mpt_edited answer)
{
    return answer.word >> 10 & 3;
}

static inline mpt_sdid mpt_close_fence_sdid(mpt_closed answer)
{
    return mpt_to_sdid(answer.word >> 12 & 63);
}

static inline mpt_sdid mpt_edit_fence_sdid(mpt_edited answer)
{
    return mpt_to_sdid(answer.word >> 12 & 63);
}

/* The slot, after the call that it belongs to. */

#if defined(__GNUC__) || defined(__clang__) /* for another compiler, write these three by its own means */

/* One store of 8 bytes: a reset leaves the old register or the new one, never a part of each. It comes
 * after all that was stored before it, also as other harts see it. */
static inline void mpt_write_slot(uint64_t *place, uint64_t value)
{
    __atomic_store_n((volatile uint64_t *)place, value, __ATOMIC_RELEASE);
}

/* The SDID and the page number of a register. */
#define MPT_REGISTER_SDID (UINT64_C(63) << 54)
#define MPT_REGISTER_PAGE ((UINT64_C(1) << 44) - 1)

/* After an open: its register goes to the slot, last of all. The root page is zeroed by then, so that a
 * reset before this store leaves the slot empty and the page free, and one after it a domain that may
 * do nothing yet. Says whether it was written. Nothing is if the open was refused, and nothing if the
 * answer can't be this slot's: the slot is above 7 or in use, or another has that SDID or that page, as
 * after two opens of which neither was written. An answer does not name its slot: that it goes to the
 * one that was opened, and not to another empty one, is the caller's to see to. */
MPT_MUST_USE static inline int mpt_write_opened(uint64_t slots[8], mpt_slot slot, mpt_opened answer)
{
    if (mpt_open_refused(answer) || slot.value >= MPT_SLOTS || slots[slot.value] != 0)
        return 0;
    for (int other = 0; other < MPT_SLOTS; other++) {
        uint64_t differs = slots[other] ^ answer.word;
        if (slots[other] != 0 && ((differs & MPT_REGISTER_SDID) == 0 || (differs & MPT_REGISTER_PAGE) == 0))
            return 0;
    }
    mpt_write_slot(&slots[slot.value], answer.word);
    return 1;
}

/* After a close: the slot is emptied, and only then comes the fence, which the caller makes for the
 * SDID that this returns. In the other order a hart that still found the register in the slot could
 * remember something after the fence. A reset between the two leaves an empty slot whose fence was
 * never made: so at a start, before the first open, everything is fenced (MFENCE.SPA x0, x0).
 * If the close was refused, or was another slot's (no two have one SDID), nothing is written, and the
 * SDID is MPT_HIGHEST_SDID + 1, which is none. */
MPT_MUST_USE static inline mpt_sdid mpt_write_closed(uint64_t slots[8], mpt_slot slot, mpt_closed answer)
{
    if (mpt_close_refused(answer) || slot.value >= MPT_SLOTS || slots[slot.value] == 0 ||
        (slots[slot.value] >> 54 & 63) != mpt_close_fence_sdid(answer).value)
        return mpt_to_sdid(MPT_HIGHEST_SDID + 1);
    mpt_write_slot(&slots[slot.value], 0);
    /* every hart sees the empty slot before the fence that follows */
    __atomic_thread_fence(__ATOMIC_SEQ_CST);
    return mpt_close_fence_sdid(answer);
}

#endif

#ifdef __cplusplus
}

/* One name for each question, for the answers that it may be asked of. */
static inline uint64_t mpt_refused(mpt_opened answer) { return mpt_open_refused(answer); }
static inline uint64_t mpt_refused(mpt_closed answer) { return mpt_close_refused(answer); }
static inline uint64_t mpt_refused(mpt_edited answer) { return mpt_edit_refused(answer); }
static inline uint64_t mpt_fence(mpt_closed answer) { return mpt_close_fence(answer); }
static inline uint64_t mpt_fence(mpt_edited answer) { return mpt_edit_fence(answer); }
static inline mpt_sdid mpt_fence_sdid(mpt_closed answer) { return mpt_close_fence_sdid(answer); }
static inline mpt_sdid mpt_fence_sdid(mpt_edited answer) { return mpt_edit_fence_sdid(answer); }

/* How many words an array has: the `count` of a call. */
template <size_t count> constexpr size_t mpt_words(const uint64_t (&)[count]) { return count; }
#define MPT_WORDS(array) mpt_words(array)
#else
/* One name for each question, for the answers that it may be asked of (C11). */
#define mpt_refused(answer) \
    _Generic((answer), mpt_opened: mpt_open_refused, mpt_closed: mpt_close_refused, \
             mpt_edited: mpt_edit_refused)(answer)
#define mpt_fence(answer) _Generic((answer), mpt_closed: mpt_close_fence, mpt_edited: mpt_edit_fence)(answer)
#define mpt_fence_sdid(answer) \
    _Generic((answer), mpt_closed: mpt_close_fence_sdid, mpt_edited: mpt_edit_fence_sdid)(answer)

/* How many words an array has: the `count` of a call. Of a pointer, or of an array of anything but
 * uint64_t, it does not compile. */
#define MPT_WORDS(array) \
    _Generic(&(array), uint64_t(*)[sizeof(array) / 8]: sizeof(array) / 8, \
             const uint64_t(*)[sizeof(array) / 8]: sizeof(array) / 8)
#endif

#endif
