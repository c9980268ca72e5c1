/* The library's calls, and what must hold once the call of a scenario is whole. */
#include "test.h"

enum { PATTERN = 0x5a5a5a5a, STACK_WORDS = USER_STACK_BYTES / 8 };
/* docs/BOARD.md promises that no call takes more. */
enum { MOST_STACK = 4096 };

void just_return(void); /* boot.S */

static const uintptr_t functions[] = {
    (uintptr_t)mpt_lookup, (uintptr_t)mpt_open,  (uintptr_t)mpt_close, (uintptr_t)mpt_edit,
    (uintptr_t)mpt_sound,  (uintptr_t)mpt_apart, (uintptr_t)just_return,
};

/* In user mode; keeps how deep the stack was written: below the two arguments that the caller puts there. */
uint64_t call_trapped(int which, const uint64_t arguments[10])
{
    for (int k = 0; k < STACK_WORDS; k++)
        USER_STACK[k] = PATTERN;
    uint64_t answer = call_user(functions[which], arguments, USER_STACK + STACK_WORDS);
    int untouched = 0;
    while (untouched < STACK_WORDS - 2 && USER_STACK[untouched] == PATTERN)
        untouched++;
    uint64_t depth = (STACK_WORDS - 2 - untouched) * 8;
    if (depth > KEPT->deepest[which])
        KEPT->deepest[which] = depth;
    return answer;
}

/* In machine mode, where nothing traps. A call takes no more than ten whole registers, and doesn't look at those that it doesn't take. */
uint64_t call_plain(int which, const uint64_t a[10])
{
    typedef uint64_t function(uint64_t, uint64_t, uint64_t, uint64_t, uint64_t, uint64_t, uint64_t, uint64_t, uint64_t, uint64_t);
    return ((function *)functions[which])(a[0], a[1], a[2], a[3], a[4], a[5], a[6], a[7], a[8], a[9]);
}

void say_stack(void)
{
    static const char *const names[CALLS] = {"lookup", "open", "close", "edit", "sound", "apart"};
    say("stack, bytes:");
    for (int which = 0; which < CALLS; which++) {
        say(which ? ", " : " ");
        say(names[which]);
        put(' ');
        say_number(KEPT->deepest[which]);
        if (KEPT->deepest[which] > MOST_STACK)
            fail("takes more stack than docs/BOARD.md says: ", KEPT->deepest[which], ", at most ", MOST_STACK);
    }
    put('\n');
}

/* The stores of the scenario's call on a table, in order. */
size_t list_of(const struct table *table, struct store *list)
{
    return tried->call == OPEN ? second_open(table, list) : second_edit(table, &tried->edit, list);
}

static void arguments_of(uint64_t a[10])
{
    const struct edit *edit = &tried->edit;
    int open = tried->call == OPEN;
    uint64_t values[10] = {
        table.paw, FIRST, (uint64_t)TABLE, table.pages * PAGE_ENTRIES, (uint64_t)KEPT->slots,
        edit->slot, open ? tried->sdid : edit->start, edit->length, edit->permission, MOST_STORES,
    };
    for (int k = 0; k < 10; k++)
        a[k] = values[k];
}

/* The scenario's call, held against a list of stores. */
uint64_t make_trapped(const struct store *list, uint64_t count, uint64_t reset_at, int reading)
{
    uint64_t a[10];
    arguments_of(a);
    watched = (struct watched){list, count, 0, reset_at, reading, EDITED};
    uint64_t answer = call_trapped(tried->call, a);
    if (watched.made != count)
        fail("ends too early, stores made ", watched.made, ", in the list ", count);
    check_answer(answer, list, count);
    return answer;
}

uint64_t make_plain(void)
{
    uint64_t a[10];
    arguments_of(a);
    return call_plain(tried->call, a);
}

/* "Fence asked". */
uint64_t fence_of(const struct edit *edit, const struct store *list, uint64_t count)
{
    if (count == 0)
        return MPT_FENCE_NONE;
    int in_root = FIRST + list[0].at / PAGE_ENTRIES == PPN(table.slots[edit->slot]);
    return edit->length == PAGE && count == 1 && !in_root ? MPT_FENCE_ADDRESS : MPT_FENCE_DOMAIN;
}

static void check_edited(mpt_edited answer, const struct store *list, uint64_t count)
{
    const struct edit *edit = &tried->edit;
    uint64_t fence = fence_of(edit, list, count), sdid = KEPT->slots[edit->slot] >> 54 & 63;
    if (mpt_refused(answer))
        fail("refused: ", mpt_refused(answer), ", answer ", answer.word);
    if (mpt_stores(answer) != count || !mpt_all(answer))
        fail("says another number of stores, or not all: answer ", answer.word, ", in the list ", count);
    if (mpt_fence(answer) != fence || (fence != MPT_FENCE_NONE && mpt_fence_sdid(answer).value != sdid))
        fail("asks another fence: answer ", answer.word, ", kind wanted ", fence);
}

void check_answer(uint64_t answer, const struct store *list, uint64_t count)
{
    if (tried->call == EDIT)
        check_edited((mpt_edited){answer}, list, count);
    else if (mpt_opened_register((mpt_opened){answer}).value != scenario->answer)
        fail("opens as ", answer, ", by document 01 ", scenario->answer);
}
