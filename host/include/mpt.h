/* The C interface of the proved monitor for RISC-V memory protection tables (Smmpt).
 *
 * What every call shares
 *
 *   paw     the physical address width, MPT_LOWEST_PAW to MPT_HIGHEST_PAW
 *   first   the page number of the first lent page: an address divided by 4,096
 *   words   the lent table memory, one entry of 8 bytes a word, lowest address first; low byte first
 *           in memory, as a little-endian machine has it
 *   count   how many words, not bytes: MPT_PAGE_WORDS for each page, MPT_FEWEST_PAGES to MPT_MOST_PAGES
 *           whole pages. MPT_WORDS(words) is it, where words is an array
 *   slots   the eight slots, each an mmpt value; zero means empty. A call reads them and never writes
 *           them: the caller keeps them, and writes one after an open and after a close
 *           (mpt_write_opened and mpt_write_closed do it in the right order)
 *
 * A pointer must be aligned to 8 bytes and good for its count of words, and slots for eight. Slots
 * and words may not overlap. Nothing is kept after the call returns, and nothing is allocated.
 *
 * Kinds that must not be mixed
 *
 *   A page number, an address, a slot's number, an SDID, a register, a privilege, a kind of access, a
 *   permission and a strength are structs of one field: one in another's place does not compile, and
 *   neither does a number, but for a number in braces in C++, as in {5}, which makes whatever stands there:
 *   don't write it. mpt_to_page, mpt_to_address, mpt_to_slot .. make one of a number; the values of the last
 *   four have names (MPT_USER, MPT_LOAD, MPT_RW, MPT_STRICT ..). What is left are plain numbers, of which no
 *   two stand side by side: paw, count, length and limit. Both ABIs, x86-64's and RISC-V's lp64d, pass and
 *   return such a struct in the same place as its field.
 *
 * What every call answers: one word, in a struct of the call's own
 *
 *   1 to 8, 10  refused: the numbers of documents 01 and 02, named below
 *   255         a privilege, kind, permission or strength code that is not listed here; tested first
 *   else        what the call's comment says
 *
 *   Ask mpt_allowed of a lookup, mpt_is_sound of a check, mpt_is_apart of a test whether the domains are
 *   kept apart, and mpt_refused of an open, a close or an edit. None of them compiles for another's answer:
 *   `!mpt_refused(..)` of a lookup would have let a fault through.
 *
 * A call that is refused or answers 255 has changed no word of the lent memory and asks no fence.
 */
#ifndef MPT_H
#define MPT_H

#include <stddef.h>
#include <stdint.h>

/* The interface's version: the major number grows when a caller must change, the minor one when
 * something is added. It numbers calls, arguments and answers, and not the rules of the tables: which
 * requests of document 02 a library has, docs/changes of its source tells. mpt_version says the
 * library's version. */
#define MPT_VERSION_MAJOR 2
#define MPT_VERSION_MINOR 1
#define MPT_VERSION ((UINT64_C(1) << 16) * MPT_VERSION_MAJOR + MPT_VERSION_MINOR)

/* An answer may not be left lying. */
#if defined(__GNUC__) || defined(__clang__)
#define MPT_MUST_USE __attribute__((warn_unused_result))
#else
#define MPT_MUST_USE
#endif

/* A count of more words than there are, as `sizeof words` would be: where the compiler sees the array,
 * clang refuses it and GCC warns. Not of mpt_open, for which words need not have been written yet: GCC
 * would take them for words that are read before. */
#define MPT_COUNTED(access_mode)
#if defined(__has_attribute)
#if __has_attribute(diagnose_if)
#undef MPT_COUNTED
#define MPT_COUNTED(access_mode) \
    __attribute__((diagnose_if(count > __builtin_object_size(words, 0) / 8, \
                               "count is of words, and there are fewer", "error")))
#elif __has_attribute(access)
#undef MPT_COUNTED
#define MPT_COUNTED(access_mode) __attribute__((access(access_mode, 3, 4)))
#endif
#endif

#ifdef __cplusplus
extern "C" {
#endif

/* Document 01's bounds. */
enum {
    MPT_LOWEST_PAW = 30,
    MPT_HIGHEST_PAW = 34,
    MPT_FEWEST_PAGES = 2, /* of lent memory */
    MPT_MOST_PAGES = 256,
    MPT_PAGE_BYTES = 4096,
    MPT_PAGE_WORDS = 512,
    MPT_SLOTS = 8,
    MPT_HIGHEST_SDID = 63,
    MPT_MOST_STORES = 1536, /* a limit that no edit exceeds */
    MPT_LEAST_LIMIT = 513   /* a new page and its link: with less, an edit may be cut there for ever */
};

/* Answers. Where several refusals fit, it is the first in the order in which the call's comment names them. */
enum {
    MPT_FINE = 0,         /* lookup: allowed; check: sound; mpt_apart: kept apart */
    MPT_BAD_FRAME = 1,    /* PAW, page count or first page out of bounds, or not whole pages */
    MPT_BAD_REGISTER = 2, /* lookup: MODE above 1, or Bare with PPN or SDID not zero */
    MPT_NOT_SOUND = 3,    /* open, close, edit, mpt_apart: the table is not sound */
    MPT_BAD_SLOT = 4,     /* slot above 7; empty for close, edit or mpt_lookup_slot; in use for open */
    MPT_BAD_RANGE = 5,    /* edit: length 0, not whole pages, or the end above 2^PAW */
    MPT_MEETS_LENT = 6,   /* edit: permission not none and the range meets the lent pages */
    MPT_NO_FREE_PAGE = 7, /* open: no page for a root; edit: too few for the whole edit */
    MPT_BAD_SDID = 8,     /* open: SDID above 63, or held by another open slot */
    MPT_NO_WRITE_EXECUTE = 10, /* edit: MPT_RWX in slots 1 to 7; slot 0 may have it */
    MPT_OUTSIDE_KIND = 255,
    MPT_FETCH_FAULT = 257, /* 256 + cause 1 */
    MPT_LOAD_FAULT = 261,  /* 256 + cause 5 */
    MPT_STORE_FAULT = 263  /* 256 + cause 7 */
};

/* Fences asked for. A fence names its SDID, and an address fence also its address, in registers
 * other than x0, also for the value 0. */
enum { MPT_FENCE_NONE = 0, MPT_FENCE_DOMAIN = 1, MPT_FENCE_ADDRESS = 2 };

/* The number of a page, a physical address, the number of a slot, and a supervisor domain's number. */
typedef struct mpt_page { uint64_t value; } mpt_page;
typedef struct mpt_address { uint64_t value; } mpt_address;
typedef struct mpt_slot { uint64_t value; } mpt_slot;
typedef struct mpt_sdid { uint64_t value; } mpt_sdid;

/* A value of a kind below, by its code. (As an initial value of a static object ISO C wants the code in
 * braces, as in {2}; GCC and clang also take the name.) */
#ifdef __cplusplus
#define MPT_VALUE(kind, code) (kind{code})
#else
#define MPT_VALUE(kind, code) ((kind){code})
#endif

/* A value of mmpt. A slot is a plain word and does not pass for one: where it is empty it holds none. */
typedef struct mpt_register { uint64_t value; } mpt_register;
/* MODE 15, which is none: the register of no domain, which every lookup refuses (MPT_BAD_REGISTER). */
#define MPT_NO_REGISTER MPT_VALUE(mpt_register, UINT64_C(15) << 60)

/* Effective privilege. */
typedef struct mpt_privilege { uint64_t value; } mpt_privilege;
#define MPT_USER MPT_VALUE(mpt_privilege, 0)
#define MPT_SUPERVISOR MPT_VALUE(mpt_privilege, 1)
#define MPT_MACHINE MPT_VALUE(mpt_privilege, 3)

/* Kinds of access. The fault is always that of the original access: fetch, load or store. */
typedef struct mpt_kind { uint64_t value; } mpt_kind;
#define MPT_FETCH MPT_VALUE(mpt_kind, 0)
#define MPT_LOAD MPT_VALUE(mpt_kind, 1)
#define MPT_STORE MPT_VALUE(mpt_kind, 2)
#define MPT_WALK_FETCH MPT_VALUE(mpt_kind, 3) /* page-table read on behalf of a fetch */
#define MPT_WALK_LOAD MPT_VALUE(mpt_kind, 4)
#define MPT_WALK_STORE MPT_VALUE(mpt_kind, 5)
#define MPT_UPDATE_FETCH MPT_VALUE(mpt_kind, 6) /* A/D update on behalf of a fetch */
#define MPT_UPDATE_LOAD MPT_VALUE(mpt_kind, 7)
#define MPT_UPDATE_STORE MPT_VALUE(mpt_kind, 8)

/* Permissions. */
typedef struct mpt_permission { uint64_t value; } mpt_permission;
#define MPT_NONE MPT_VALUE(mpt_permission, 0)
#define MPT_RX MPT_VALUE(mpt_permission, 1)
#define MPT_RW MPT_VALUE(mpt_permission, 2)
#define MPT_RWX MPT_VALUE(mpt_permission, 3)

/* How much is asked for domains to be kept apart. */
typedef struct mpt_strength { uint64_t value; } mpt_strength;
/* Of two domains to which a page is open neither may write it, and no domain may write a table page: domains
 * may share what none of them may write, as program code. */
#define MPT_SHARING MPT_VALUE(mpt_strength, 0)
/* No page is open to two domains, and no table page to any. */
#define MPT_STRICT MPT_VALUE(mpt_strength, 1)

/* What each call answers. */
typedef struct mpt_looked { uint64_t word; } mpt_looked;
typedef struct mpt_opened { uint64_t word; } mpt_opened;
typedef struct mpt_closed { uint64_t word; } mpt_closed;
typedef struct mpt_edited { uint64_t word; } mpt_edited;
typedef struct mpt_checked { uint64_t word; } mpt_checked;
typedef struct mpt_tested { uint64_t word; } mpt_tested;

#ifdef __clang__
#pragma clang diagnostic push
#pragma clang diagnostic ignored "-Wgcc-compat" /* MPT_COUNTED is clang's own there */
#endif

/* The library's version, as MPT_VERSION has the header's; mpt_version_fits compares them. */
MPT_MUST_USE uint64_t mpt_version(void);

/* May an access of this kind, at this privilege, reach this one address under this register?
 *
 * To ask of a slot, use mpt_lookup_slot. Outside M mode and Bare it reads one L2 entry and at most one
 * L1 entry, and faults where the L2 entry breaks its rules, where a page to be read is not lent, or
 * where a reserved bit is set in any of the L1 entry's 16 fields. It is no check of the table: it does
 * not see that a page is named twice, say. mpt_sound does, and so do open, close and edit.
 *
 *   mmpt       the register's value; any value. 0 is Bare, which allows every access: right for a
 *              register that holds 0, and wrong for an empty slot, which holds 0 too
 *   privilege  MPT_USER, MPT_SUPERVISOR or MPT_MACHINE
 *   kind       MPT_FETCH to MPT_UPDATE_STORE
 *   address    the physical address; any value
 *
 * Answers 0 allowed; 1 or 2 refused; 257, 261 or 263 the fault; 255. See mpt_allowed.
 */
MPT_MUST_USE mpt_looked mpt_lookup(uint64_t paw, mpt_page first, const uint64_t *words, size_t count,
                                   mpt_register mmpt, mpt_privilege privilege, mpt_kind kind, mpt_address address)
    MPT_COUNTED(read_only);

/* Opens an empty slot for a domain: takes the lowest free page and zeroes it. No fence is needed.
 *
 *   slot  0 to 7
 *   sdid  0 to 63, held by no other open slot
 *
 * Answers the register of the new domain (MODE 1, this SDID, that page; never below 2^60), which the
 * caller then writes to slots[slot] by mpt_write_opened; 1, 3, 4, 8 or 7 refused.
 */
MPT_MUST_USE mpt_opened mpt_open(uint64_t paw, mpt_page first, uint64_t *words, size_t count,
                                 const uint64_t slots[8], mpt_slot slot, mpt_sdid sdid);

/* Closes a slot. The caller then writes zero to slots[slot] by mpt_write_closed, and makes the fence
 * before the SDID is used again.
 *
 * Answers 256, and the fence (always MPT_FENCE_DOMAIN) as mpt_fence and mpt_fence_sdid read it;
 * 1, 3 or 4 refused.
 */
MPT_MUST_USE mpt_closed mpt_close(uint64_t paw, mpt_page first, const uint64_t *words, size_t count,
                                  const uint64_t slots[8], mpt_slot slot) MPT_COUNTED(read_only);

/* Gives every page of a range one permission in the domain of a slot. Makes the first stores of
 * document 01's ordered list, up to the limit. After a cut edit the next edit in that domain must be
 * the same one, finished, and then the whole domain fenced, whatever that call asks.
 *
 *   slot        an open slot, 0 to 7
 *   start       the first address; a multiple of 4,096
 *   length      in bytes; a multiple of 4,096, not 0
 *   permission  MPT_NONE to MPT_RWX; MPT_RWX in slot 0 alone. Pages that are rwx in other slots, from before this
 *               rule, stay so until they are edited
 *   limit       the most stores to make; MPT_MOST_STORES is always enough. Where an edit is made again
 *               until it is not cut, MPT_LEAST_LIMIT or more: a new page that was not linked yet is begun
 *               again, so that with less the edit may never end
 *
 * Answers 256, and in the bits above: how many stores were made (mpt_stores), whether those were all
 * (mpt_all) or the limit cut it (mpt_cut), and the fence (mpt_fence, mpt_fence_sdid; an address fence is
 * for the address start); 1, 3, 4, 5, 10, 6 or 7 refused; 255.
 */
MPT_MUST_USE mpt_edited mpt_edit(uint64_t paw, mpt_page first, uint64_t *words, size_t count,
                                 const uint64_t slots[8], mpt_slot slot, mpt_address start, uint64_t length,
                                 mpt_permission permission, uint64_t limit) MPT_COUNTED(read_write);

/* Is the whole table sound? Changes nothing.
 *
 * Answers 0 sound; 1 the frame breaks its bounds; 3 not sound. See mpt_is_sound.
 */
MPT_MUST_USE mpt_checked mpt_sound(uint64_t paw, mpt_page first, const uint64_t *words, size_t count,
                                   const uint64_t slots[8]) MPT_COUNTED(read_only);

/* Are the domains kept apart? Changes nothing.
 *
 * Where they are, what a domain loads is what it would load if it were alone on the board, whatever the others
 * do, as long as the table stays as it is and only domains store, each through its walk. Ask it after the last
 * open, close or edit and its fence, and again after any other, or after anything else wrote the table or the
 * slots. (An open may take a free lent page that is open to a domain.)
 *
 * A table page is an open slot's root, or an L1 page that an entry of one names; a lent page that is free
 * is none. Open to a domain is what it may read, write or execute.
 *
 *   strength  MPT_SHARING or MPT_STRICT
 *
 * Answers 0 apart; 1 or 3 refused; 255. Else 256 and, in the bits above, of the lowest page at fault: its
 * number (mpt_apart_page), whether it is a table page (mpt_apart_table), the lowest slot or the lowest two
 * (mpt_apart_slot, mpt_apart_other), and whether one of them may write it (mpt_apart_written). A table page
 * that two slots share too is told as a table page. See mpt_is_apart.
 */
MPT_MUST_USE mpt_tested mpt_apart(uint64_t paw, mpt_page first, const uint64_t *words, size_t count,
                                  const uint64_t slots[8], mpt_strength strength) MPT_COUNTED(read_only);

#ifdef __clang__
#pragma clang diagnostic pop
#endif

#ifdef __cplusplus
}
#endif

#include "mpt_answer.h"

#endif
