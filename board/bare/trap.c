/* Every store that user mode may not make comes here. Of a call that is watched: is it the next of document 01's list, and does every
 * address that it governs read as before or as after the whole call? Then it is made. */
#include "test.h"

/* 0 leaves that question out, to see that the other, and what the next start asks, is asked in earnest. */
#ifndef ORDER
#define ORDER 1
#endif
#ifndef READING
#define READING 1
#endif

struct watched watched;
const char *phase = "";
void (*on_store)(uint64_t address, uint64_t word);
void (*on_fence)(uint64_t kind, uint64_t address, uint64_t sdid);
int leave_user;

void fail(const char *fact, uint64_t number, const char *more, uint64_t other)
{
    say("FAIL ");
    if (scenario)
        say(scenario->name);
    say(phase);
    if (KEPT->resets) {
        say(", reset ");
        say_number(KEPT->resets);
    }
    if (watched.made < watched.count) {
        say(", store ");
        say_number(watched.made + 1);
    }
    say(": ");
    say(fact);
    say_hex(number);
    say(more);
    say_hex(other);
    put('\n');
    stop(1);
}

/* The register that an 8-byte store takes its value from, and the length of the instruction. */
static uint32_t stored_register(uint64_t at, uint64_t *length)
{
    uint32_t low = *(const uint16_t *)at, word = low | (uint32_t)*(const uint16_t *)(at + 2) << 16;
    *length = (low & 3) == 3 ? 4 : 2;
    if ((word & 0x707f) == 0x3023)
        return word >> 20 & 31; /* sd */
    if ((low & 0xe003) == 0xe000)
        return 8 + (low >> 2 & 7); /* c.sd */
    if ((low & 0xe003) == 0xe002)
        return low >> 2 & 31; /* c.sdsp */
    fail("not one store of 8 bytes: instruction ", *length == 4 ? word : low, " at ", at);
    return 0;
}

/* Why a store is not the next of the list. */
static void wrong_place(uint64_t address)
{
    uint64_t at = (address - (uint64_t)TABLE) / 8, due = watched.list[watched.made].at;
    if (at >= table.pages * PAGE_ENTRIES)
        fail("a store outside the table and the stack, to ", address, ", due is word ", due);
    for (uint64_t k = 0; k < watched.made; k++)
        if (watched.list[k].at == at)
            fail("word ", at, " is stored again, due is word ", due);
    if (watched.made + 1 < watched.count && watched.list[watched.made + 1].at == at)
        fail("left out: word ", due, ", stored is word ", at);
    for (uint64_t k = watched.made; k < watched.count; k++)
        if (watched.list[k].at == at && watched.list[k].word >> 44 == 4)
            fail("linked before its page is whole: word ", at, ", due is word ", due);
        else if (watched.list[k].at == at)
            fail("out of order: word ", at, ", due is word ", due);
    fail("a word that is not in the list: ", at, ", due is word ", due);
}

void check_store(uint64_t address, uint64_t word)
{
    if (watched.made == watched.count)
        fail("more stores than the list has: to ", address, " the word ", word);
    const struct store *due = &watched.list[watched.made];
    if (address != (uint64_t)(TABLE + due->at))
        wrong_place(address);
    if (word != due->word)
        fail("stores ", word, ", document 01 says ", due->word);
}

/* Pages of one block. */
static void check_pages(uint64_t from, uint64_t count)
{
    static _Alignas(8) uint8_t now[BLOCK_PAGES];
    const uint8_t *before = KEPT->whole.reads_before.pages + from, *after = KEPT->whole.reads_after.pages + from;
    second_walk(&table, table.slots[watched.edited], from, count, now);
    for (uint64_t page = 0; page < count; page++)
        if (now[page] != before[page] && now[page] != after[page])
            fail("reads neither as before nor as after: address ", (from + page) * PAGE, ", permission ", now[page]);
}

static void check_block(uint64_t block)
{
    const struct whole *whole = &KEPT->whole;
    uint64_t mmpt = table.slots[watched.edited];
    if (!block_reads(mmpt, &whole->reads_before, block) && !block_reads(mmpt, &whole->reads_after, block))
        check_pages(block * BLOCK_PAGES, BLOCK_PAGES);
}

/* Both domains, all of them. */
static void check_everything(void)
{
    for (uint64_t block = 0; block < UINT64_C(1) << (table.paw - 25); block++) {
        check_block(block);
        if (!block_reads(table.slots[OTHER], &KEPT->whole.reads_other, block))
            fail("another domain reads otherwise: the block from ", block * BLOCK_PAGES * PAGE, ", register ", table.slots[OTHER]);
    }
}

/* A word of the root governs a block, any other 16 pages. */
void check_governed(uint64_t at)
{
    uint64_t block = watched.list[watched.made].block;
    if (FIRST + at / PAGE_ENTRIES == PPN(table.slots[watched.edited]))
        check_block(block);
    else
        check_pages(block * BLOCK_PAGES + at % PAGE_ENTRIES * 16, 16);
}

void watched_store(uint64_t address, uint64_t word)
{
    if (ORDER)
        check_store(address, word);
    if (watched.reset_at == 0)
        reset();
    *(volatile uint64_t *)address = word;
    if (READING && watched.reading == THOROUGH)
        check_everything();
    else if (READING && watched.reading == GOVERNED)
        check_governed((address - (uint64_t)TABLE) / 8);
    watched.made++;
    if (watched.made == watched.reset_at)
        reset();
}

void trap(const uint64_t *registers)
{
    uint64_t cause, at, value, length = 4;
    __asm__ volatile("csrr %0, mcause" : "=r"(cause));
    __asm__ volatile("csrr %0, mepc" : "=r"(at));
    __asm__ volatile("csrr %0, mtval" : "=r"(value));
    if (cause == (UINT64_C(1) << 63 | 7))
        reset(); /* the watchdog */
    if (cause == 7)
        on_store(value, registers[stored_register(at, &length)]);
    else if (cause == 3 && on_fence)
        on_fence(registers[10], registers[11], registers[12]);
    else
        fail("a trap that nothing asked for: cause ", cause, " at ", at);
    __asm__ volatile("csrw mepc, %0" ::"r"(leave_user ? (uint64_t)user_exit : at + length));
    leave_user = 0;
}
