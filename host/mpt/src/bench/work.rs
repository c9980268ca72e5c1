//! What is measured: tables, and the calls made on them.

use super::Subject;
use crate::programs::PLAIN;
use crate::random::Random;
use mpt_monitor::{
    Address, Answer, Call, Edit, Frame, Interface, Memory, Monitor, PageNumber, Permission, Reading, Register, Sdid,
    Slot, Strength, Table, MOST_STORES, PAGE_WORDS,
};
use std::arch::asm;

/// One thing to measure.
pub struct Work {
    pub name: &'static str,
    pub what: &'static str,
    pub table: Table,
    pub calls: Calls,
}

/// The calls of a batch.
pub enum Calls {
    /// Kinds and addresses, one after another on one table, under slot 0's register.
    Lookups(Vec<(u64, Address)>),
    /// One on each table.
    One(Call),
}

/// Calls in a batch of lookups, and tables in a batch of anything that changes them. The lookups are
/// so many that a core does not learn by heart which way each will go, as it does with 4,096. The
/// tables are small, so that a batch of them stays in a core's cache.
const LOOKUPS: usize = 65_536;
const TABLES: usize = 32;

impl Work {
    /// The tables that a batch needs: those that calls leave unchanged need one. Each begins at another
    /// place of a page: where a word of the table and one of the stack have the same place in their
    /// pages, a core takes them for the same for a moment, and by chance all tables would or none.
    pub fn tables(&self) -> Vec<Table> {
        let unchanged =
            matches!(self.calls, Calls::Lookups(_) | Calls::One(Call::Reading(Reading::Sound | Reading::Apart { .. })));
        (0..if unchanged { 1 } else { TABLES }).map(|nth| self.table_with_room(16 * nth)).collect()
    }

    /// The table, with room for as many words more behind it.
    fn table_with_room(&self, more: usize) -> Table {
        let mut words = Vec::with_capacity(self.table.words().len() + more);
        words.extend_from_slice(self.table.words());
        Table::from_parts(self.table.frame(), words, *self.table.slots())
    }

    /// How many calls a batch makes.
    pub fn count(&self, tables: &[Table]) -> usize {
        match &self.calls {
            Calls::Lookups(asked) => asked.len(),
            Calls::One(_) => tables.len(),
        }
    }

    /// Puts every table back as it was.
    pub fn reset(&self, tables: &mut [Table]) {
        for table in tables {
            table.words_mut().copy_from_slice(self.table.words());
            *table.slots_mut() = *self.table.slots();
        }
    }
}

/// A program with its batches of calls, which are compiled for it alone: a call is made as firmware makes
/// it, with nothing in between.
pub trait Batches {
    /// Makes a work's calls; how many were refused, which is as little as can be read of an answer.
    fn batch(&self, work: &Work, tables: &mut [Table]) -> usize;

    /// Makes the whole-table check on each table; how many are refused.
    fn checks(&self, tables: &mut [Table]) -> usize;

    /// Makes a work's calls; all answers.
    fn answers(&self, work: &Work, tables: &mut [Table]) -> Vec<Answer>;
}

impl<I: Interface> Batches for I {
    fn batch(&self, work: &Work, tables: &mut [Table]) -> usize {
        let mut refused = 0;
        make(self, work, tables, |answer| refused += usize::from(is_refused(answer)));
        refused
    }

    fn checks(&self, tables: &mut [Table]) -> usize {
        tables.iter().filter(|table| is_refused(self.read(opaque(table.view()), Reading::Sound))).count()
    }

    fn answers(&self, work: &Work, tables: &mut [Table]) -> Vec<Answer> {
        let mut answers = Vec::new();
        make(self, work, tables, |answer| answers.push(answer));
        answers
    }
}

/// Makes the calls and tells each answer.
#[inline(always)]
fn make<I: Interface>(program: &I, work: &Work, tables: &mut [Table], mut tell: impl FnMut(Answer)) {
    match &work.calls {
        Calls::Lookups(asked) => {
            let view = tables[0].view();
            let register = Register(view.slots[0]);
            for &(kind, address) in asked {
                tell(program.read(view, Reading::Lookup { register, privilege: 1, kind, address }));
            }
        }
        Calls::One(Call::Reading(Reading::Sound)) => {
            tables.iter().for_each(|table| tell(program.read(opaque(table.view()), Reading::Sound)));
        }
        &Calls::One(Call::Reading(call @ Reading::Apart { .. })) => {
            tables.iter().for_each(|table| tell(program.read(opaque(table.view()), call)));
        }
        Calls::One(call) => tables.iter_mut().for_each(|table| tell(Monitor::over(program).call(table, *call))),
    }
}

fn is_refused(answer: Answer) -> bool {
    matches!(answer, Answer::Refused(_))
}

/// The same value, of which the compiler knows nothing.
#[inline]
pub fn opaque<T>(value: T) -> T {
    // SAFETY: no instruction at all.
    unsafe { asm!("/* {} */", in(reg) &value, options(nostack, preserves_flags)) };
    value
}

/// The bench of document 01 with fewer pages: PAW 32, from page 0x80000, slot 0 opened with SDID 5.
fn bench() -> Table {
    opened(32, 0x80000, 3)
}

fn opened(paw: u64, first: u64, pages: usize) -> Table {
    let mut table = Table::new(Frame { paw, first: PageNumber(first) }, pages);
    PLAIN.monitor().open(&mut table, Slot(0), Sdid(5)).expect("an empty table opens");
    table
}

fn edit(start: u64, length: u64, permission: Permission) -> Edit {
    Edit { slot: Slot(0), start: Address(start), length, permission, limit: MOST_STORES }
}

fn after(mut table: Table, edits: &[Edit]) -> Table {
    for edit in edits {
        assert!(PLAIN.monitor().edit(&mut table, *edit).expect("an edit to begin with").all);
    }
    table
}

/// Lookups over flat blocks, pieces and L1 pages.
pub fn lookup() -> Work {
    let edits = [
        edit(0, 0x4000_0000, Permission::Rw),
        edit(0x4020_0000, 0x0460_0000, Permission::Rx),
        edit(0x4600_0000, 0x0000_5000, Permission::Rwx),
    ];
    let table = after(bench(), &edits);
    let mut random = Random::new(1, 0);
    let mut address = || match random.below(3) {
        0 => random.below(0x4000_0000),
        1 => 0x4000_0000 + random.below(0x0600_0000),
        _ => 0x4600_0000 + random.below(0x0200_0000),
    };
    let calls = Calls::Lookups((0..LOOKUPS).map(|nth| (nth as u64 % 9, Address(address()))).collect());
    Work { name: "lookup", what: "random addresses: flat, pieces, pages", table, calls }
}

/// 8 roots and 248 L1 pages at PAW 34, every field rw.
pub fn largest() -> Work {
    let first = 0x1000;
    let mut words = vec![0x2222_2222_2222_2222; 256 * PAGE_WORDS];
    words[..8 * PAGE_WORDS].fill(2 << 44);
    let slots = std::array::from_fn(|slot| 1 << 60 | (slot as u64) << 54 | (first + slot as u64));
    for page in 8..256 {
        let (slot, nth) = (page % 8, page / 8 - 1);
        words[slot * PAGE_WORDS + nth * 16] = 4 << 44 | (first + page as u64);
    }
    let table = Table::from_parts(Frame { paw: 34, first: PageNumber(first) }, words, slots);
    Work { name: "check", what: "whole table, 8 roots and 248 L1 pages", table, calls: Calls::One(Call::sound()) }
}

/// Whether domains are kept apart. All of these are, so that the whole table is read.
pub fn apart() -> Vec<Work> {
    let work = |name, what, table, strength| Work { name, what, table, calls: Calls::One(Call::apart(strength)) };
    vec![
        work("apart-cradles", "eight cradles that share program code", cradles(), Strength::Sharing),
        work("apart-largest", "248 L1 pages, eight to a block, strict", striped(8), Strength::Strict),
        work("apart-pairs", "248 L1 pages, two to a block, strict", striped(2), Strength::Strict),
        work("apart-alone", "248 L1 pages, one to a block, strict", striped(1), Strength::Strict),
    ]
}

/// The bench of `examples/cradles.mpt`: eight domains with 512 MiB each, and program code that all may execute.
fn cradles() -> Table {
    let mut table = Table::new(Frame { paw: 33, first: PageNumber(0x80000) }, 64);
    let mut edits = Vec::new();
    for slot in 0..8 {
        PLAIN.monitor().open(&mut table, Slot(slot), Sdid(slot + 1)).expect("an empty slot opens");
        edits.push(Edit { slot: Slot(slot), ..edit((8 + slot) << 29, 1 << 29, Permission::Rw) });
        edits.push(Edit { slot: Slot(slot), ..edit(0xC000_0000, 0x800_0000, Permission::Rx) });
    }
    edits.extend([edit(0x4020_0000, 0x20_0000, Permission::Rw), edit(0x8010_0000, 0x1000, Permission::Rw)]);
    after(table, &edits)
}

/// 8 roots and 248 L1 pages at PAW 34. Block 0, where the lent pages are, is closed; of the others some are by the L1 pages
/// of `together` domains, field by field in turn, and the rest by pieces in turn.
fn striped(together: u64) -> Table {
    let (first, blocks) = (0x1000, 512);
    let mut words = vec![0; 256 * PAGE_WORDS];
    let slots = std::array::from_fn(|slot| 1 << 60 | (slot as u64) << 54 | (first + slot as u64));
    let turns = |slot: u64, count: u64, width: u64| -> u64 {
        (0..16).filter(|each| each % count == slot % count).map(|each| 2 << (width * each)).sum()
    };
    for (slot, root) in words.chunks_mut(PAGE_WORDS).take(8).enumerate() {
        root[1..blocks as usize].fill(6 << 44 | turns(slot as u64, 8, 2));
    }
    let paged = 248 / together;
    for nth in 0..248u64 {
        let (place, slot) = (nth / together, nth % together + nth / together * together % 8);
        let block = (place + 1) * (blocks / (paged + 1));
        let page = (8 + nth) as usize * PAGE_WORDS;
        words[page..page + PAGE_WORDS].fill(turns(slot, together, 4));
        if nth % together == 0 {
            (0..8).for_each(|slot| words[slot * PAGE_WORDS + block as usize] = 0);
        }
        words[slot as usize * PAGE_WORDS + block as usize] = 4 << 44 | (first + 8 + nth);
    }
    Table::from_parts(Frame { paw: 34, first: PageNumber(first) }, words, slots)
}

/// The five edits that have a goal, and a sixth: after the first page of a GiB, its other blocks are by
/// pieces, so that the next page is made in such a block.
pub fn edits() -> Vec<Work> {
    let c = edit(0x4000_0000, 0x1000, Permission::Rw);
    let f = edit(0x4000_3000, 0x1000, Permission::Rx);
    let g = edit(0x4000_0000, 0x4000_0000, Permission::Rw);
    let h = edit(0x4020_0000, 0x20_0000, Permission::None);
    let all = edit(0, 1 << 34, Permission::None);
    let next = edit(0x4200_0000, 0x1000, Permission::Rw);
    let work = |name, what, table, edit| Work { name, what, table, calls: Calls::One(Call::edit(edit)) };
    vec![
        work("edit-page", "one page in a present L1 page (F)", after(bench(), &[c]), f),
        work("edit-new-page", "one page in a new L1 page (C)", bench(), c),
        work("edit-gib", "one GiB (G)", after(bench(), &[c]), g),
        work("edit-piece", "one piece of 2 MiB (H)", after(bench(), &[c, g]), h),
        work("edit-all", "all 16 GiB at PAW 34", everywhere_rw(), all),
        work("edit-next-page", "the next page, in a block by pieces", after(bench(), &[c]), next),
    ]
}

/// PAW 34, all of it rw but a piece that holds the lent pages: an edit of all changes each entry.
fn everywhere_rw() -> Table {
    let around = [edit(0, 0x4000_0000, Permission::Rw), edit(0x4020_0000, (1 << 34) - 0x4020_0000, Permission::Rw)];
    after(opened(34, 0x40000, 3), &around)
}

/// A second domain beside case C's.
pub fn open() -> Work {
    let calls = Calls::One(Call::open(Slot(1), Sdid(6)));
    Work { name: "open", what: "a second domain", table: case_c(), calls }
}

/// The one domain of case C.
pub fn close() -> Work {
    let calls = Calls::One(Call::close(Slot(0)));
    Work { name: "close", what: "the one domain", table: case_c(), calls }
}

fn case_c() -> Table {
    after(bench(), &[edit(0x4000_0000, 0x1000, Permission::Rw)])
}

/// Both programs must give the same answers, words and slots, or there is nothing to measure.
pub fn check_agreement(work: &Work, subject: Subject, yardstick: Subject) -> Result<(), String> {
    let made = |subject: Subject| {
        let mut tables = work.tables();
        (subject.program.answers(work, &mut tables), tables)
    };
    if made(subject) == made(yardstick) {
        return Ok(());
    }
    Err(format!("{}: {} and {} do not agree; run `mpt test`", work.name, subject.name, yardstick.name))
}
