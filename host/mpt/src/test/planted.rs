//! Tables whose domains are kept apart, made of any sound table, and then faults that are planted in them, one or two at a time.

use super::class::Class;
use super::layout::{blocks, entries, link, linked, open, pages, pieces, spread, words_of};
use super::reading::used_pages;
use super::separation::Separated;
use super::trial::{Failure, Trial};
use crate::answer::Reply;
use crate::command::Command;
use crate::random::Random;
use mpt_monitor::{Answer, PageNumber, Register, Separation, Strength, Table};

/// Permissions by number.
const NONE: u64 = 0;
const RX: u64 = 1;
const RW: u64 = 2;

/// The low bit of each piece of a TYPE 6 entry, and of each field of an L1 entry.
const EACH_PIECE: u64 = 0x5555_5555;
const EACH_FIELD: u64 = 0x1111_1111_1111_1111;

/// Tests of a table that is kept apart and of such tables with faults; the table is then as it was.
pub fn planted(trial: &mut Trial, random: &mut Random) -> Result<(), Failure> {
    let before = trial.table().clone();
    if used_pages(&before).is_none() || open(&before).count() == 0 {
        return Ok(());
    }
    let clean = kept_apart(random, &before);
    trial.start(clean.clone());
    both_strengths(trial)?;
    for _ in 0..1 + random.below(4) {
        let mut table = clean.clone();
        for _ in 0..1 + random.below(2) {
            plant(random, &mut table);
        }
        trial.start(table);
        both_strengths(trial)?;
    }
    trial.start(before);
    Ok(())
}

/// Tests by both strengths, and where they find one kind of fault without it too.
fn both_strengths(trial: &mut Trial) -> Result<(), Failure> {
    let [sharing, strict] = [tested(trial, Strength::Sharing)?, tested(trial, Strength::Strict)?];
    if let (Some(Separation::Apart), Some(of_table)) = (sharing, strict.and_then(is_of_table)) {
        trial.tally.note(Class::Separated(Separated::OnlyStrict { of_table }));
    }
    let (page, of_table) = match strict.and_then(|told| Some((page_of(told)?, is_of_table(told)?))) {
        Some(told) => told,
        None => return Ok(()),
    };
    let mut table = trial.table().clone();
    for register in open(&trial.table().clone()) {
        give(&mut table, register, page.0, NONE, false);
    }
    trial.start(table);
    let next = tested(trial, Strength::Strict)?;
    if next.and_then(is_of_table) == Some(!of_table) {
        trial.tally.note(Class::Separated(Separated::Next { of_table }));
    }
    Ok(())
}

fn tested(trial: &mut Trial, strength: Strength) -> Result<Option<Separation>, Failure> {
    Ok(match trial.obey(Command::Apart(strength))? {
        Reply::Call(Answer::Tested(separation)) => Some(separation),
        _ => None,
    })
}

fn is_of_table(told: Separation) -> Option<bool> {
    match told {
        Separation::Apart => None,
        Separation::TableOpen { .. } => Some(true),
        Separation::PageShared { .. } => Some(false),
    }
}

fn page_of(told: Separation) -> Option<PageNumber> {
    match told {
        Separation::Apart => None,
        Separation::TableOpen { page, .. } | Separation::PageShared { page, .. } => Some(page),
    }
}

/// What is left to each domain of a block.
#[derive(Clone, Copy)]
enum Division {
    /// All of it to one, by its number among the open slots.
    One(usize),
    /// To each what it may only read of it.
    Reading,
    /// Its pieces by turns.
    Pieces(usize),
    /// To those with an L1 page the fields by turns, and nothing to the others.
    Fields(usize),
    Nothing,
}

/// What a domain keeps of a block: bits of the pieces, and bits of the L1 entries of each piece.
struct Kept {
    pieces: u64,
    entries: [u64; 16],
}

impl Division {
    /// What the `nth` of `count` domains keeps.
    fn kept(self, nth: usize, count: usize) -> Kept {
        let all = |is: bool| if is { u64::MAX } else { 0 };
        let turns = |from: usize, width: usize| -> u64 {
            (0..16).filter(|each| (each + nth) % count == from).map(|each| 3 << (width * each)).sum()
        };
        match self {
            Division::Nothing => Kept { pieces: 0, entries: [0; 16] },
            Division::One(one) => Kept { pieces: all(one == nth), entries: [all(one == nth); 16] },
            Division::Reading => Kept { pieces: EACH_PIECE, entries: [EACH_FIELD; 16] },
            Division::Pieces(from) => {
                let pieces = turns(from, 2);
                Kept { pieces, entries: std::array::from_fn(|piece| all(pieces >> (2 * piece) & 3 != 0)) }
            }
            Division::Fields(from) => Kept { pieces: 0, entries: [turns(from, 4); 16] },
        }
    }
}

/// A sound table with permissions taken away until its domains are kept apart, at least by the weaker test.
fn kept_apart(random: &mut Random, table: &Table) -> Table {
    let mut table = table.clone();
    let registers: Vec<Register> = open(&table).collect();
    let (count, first) = (registers.len(), table.frame().first.0);
    let lent = first >> 13..=(first + pages(&table) as u64 - 1) >> 13;
    for block in 0..blocks(&table) {
        let from = random.below(count as u64) as usize;
        let division = match random.below(8) {
            _ if lent.contains(&(block as u64)) => Division::Nothing,
            0..=2 => Division::One(from),
            3 => Division::Reading,
            4 | 5 => Division::Pieces(from),
            _ => Division::Fields(from),
        };
        for (nth, register) in registers.iter().enumerate() {
            keep(&mut table, *register, block, &division.kept(nth, count));
        }
    }
    table
}

fn keep(table: &mut Table, register: Register, block: usize, kept: &Kept) {
    let (at, entry) = entry_at(table, register, block);
    match linked(entry) {
        Some(page) => {
            let words = words_of(table, page).expect("a sound table's L1 pages are lent");
            let entries = table.words_mut()[words].iter_mut().enumerate();
            entries.for_each(|(nth, word)| *word &= kept.entries[nth / 32]);
        }
        None => table.words_mut()[at] = pieces(info(entry) & kept.pieces),
    }
}

/// Where an L2 entry of a domain lies, and what it is.
fn entry_at(table: &Table, register: Register, block: usize) -> (usize, u64) {
    let at = words_of(table, register.root().0).expect("a sound table's roots are lent").start + block;
    (at, table.words()[at])
}

/// By pieces, what an L2 entry says that is no TYPE 4.
fn info(entry: u64) -> u64 {
    match entry >> 44 {
        6 => entry & 0xFFFF_FFFF,
        one => one * EACH_PIECE,
    }
}

/// Opens a page to some domains, where that may be a fault.
fn plant(random: &mut Random, table: &mut Table) {
    let page = target(random, table);
    let registers: Vec<Register> = open(table).collect();
    let permission = |random: &mut Random| random.pick(&[RX, RX, RW, RW, 3]);
    let chosen: Vec<Register> = match random.below(8) {
        0 => registers.clone(),
        1..=2 => vec![random.pick(&registers)],
        _ => (0..2 + random.below(2)).map(|_| random.pick(&registers)).collect(),
    };
    let one = permission(random);
    let alike = random.percent(30);
    for register in chosen {
        let what = if alike { one } else { permission(random) };
        let by_page = random.percent(60);
        give(table, register, page, what, by_page);
    }
}

/// A page to open: in use, lent, at an end of the address space, in a block with an L1 page, or any.
fn target(random: &mut Random, table: &Table) -> u64 {
    let space = 1u64 << (table.frame().paw - 12);
    let (first, count) = (table.frame().first.0, pages(table) as u64);
    let used = used_pages(table).expect("the table is sound");
    let in_l1: Vec<u64> = open(table)
        .filter_map(|register| entries(table, register))
        .flat_map(|root| (0..).zip(root).filter(|(_, entry)| linked(**entry).is_some()).map(|(block, _)| block << 13))
        .collect();
    match random.below(10) {
        0 | 1 => random.pick(&used),
        2 => used[random.edge(used.len() as u64) as usize],
        3 | 4 => first + random.edge(count),
        5 => random.pick(&[0, space - 1, space - 1]),
        6 | 7 if !in_l1.is_empty() => random.pick(&in_l1) | random.edge(8192),
        _ => random.edge(space),
    }
}

/// Gives a page, or the piece that holds it, a permission in a domain. By page it may take a free page for an L1 page.
fn give(table: &mut Table, register: Register, page: u64, permission: u64, by_page: bool) {
    let (at, entry) = entry_at(table, register, (page >> 13) as usize);
    let piece = 2 * (page >> 9 & 15);
    let free = if by_page { free_page(table, page) } else { None };
    let l1 = match (linked(entry), free) {
        (Some(l1), _) => l1,
        (None, Some(l1)) => {
            let words = words_of(table, l1).expect("a free page is lent");
            let place = table.words_mut()[words].iter_mut().enumerate();
            place.for_each(|(nth, word)| *word = spread(info(entry) >> (nth / 32 * 2) & 3));
            table.words_mut()[at] = link(l1);
            l1
        }
        (None, None) => {
            table.words_mut()[at] = pieces(info(entry) & !(3 << piece) | permission << piece);
            return;
        }
    };
    let (field, start) = (4 * (page & 15), words_of(table, l1).expect("an L1 page is lent").start);
    let word = &mut table.words_mut()[start + (page >> 4 & 511) as usize];
    *word = *word & !(3 << field) | permission << field;
}

/// The highest free page that is not this one.
fn free_page(table: &Table, page: u64) -> Option<u64> {
    let (first, used) = (table.frame().first.0, used_pages(table)?);
    (first..first + pages(table) as u64).rev().find(|each| *each != page && !used.contains(each))
}

#[cfg(test)]
mod tests {
    use super::*;
    use crate::programs::SECOND;
    use crate::test::frames::Size;
    use crate::test::start::start;
    use mpt_monitor::PAGE_WORDS;

    #[test]
    fn what_is_kept_apart_is_so_by_the_weaker_test_and_stays_sound_with_faults() {
        let (mut found, mut strict) = (0, 0);
        for stream in 0..40 {
            let random = &mut Random::new(3, stream);
            let (table, _) = start(random, Size::Small);
            let mut table = kept_apart(random, &table);
            let apart = |table: &Table, strength| SECOND.monitor().apart(table, strength);
            assert_eq!(apart(&table, Strength::Sharing), Ok(Separation::Apart), "{stream}");
            strict += usize::from(apart(&table, Strength::Strict) == Ok(Separation::Apart));
            plant(random, &mut table);
            let answer = apart(&table, Strength::Strict);
            assert!(answer.is_ok(), "{stream}: {answer:?}");
            found += usize::from(answer != Ok(Separation::Apart));
        }
        assert!(found > 10 && strict > 5, "{found} {strict}");
    }

    #[test]
    fn a_page_is_given_in_each_form() {
        let mut table = Table::new(mpt_monitor::Frame { paw: 30, first: PageNumber(0x100) }, 4);
        let register = Register(0x1040_0000_0000_0100);
        table.slots_mut()[0] = register.0;
        give(&mut table, register, 0x201, RX, false);
        assert_eq!(table.words()[0], 0x6000_0000_0004);
        give(&mut table, register, 0x3FF, RW, true);
        assert_eq!((table.words()[0], table.words()[3 * PAGE_WORDS]), (0x4000_0000_0103, 0));
        assert_eq!(table.words()[3 * PAGE_WORDS + 63], 0x2111_1111_1111_1111);
    }
}
