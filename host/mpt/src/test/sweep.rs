//! Each bit of a good word changed in turn: entries of every type, registers, addresses, and words
//! that nothing may read; and one bit of each entry of a GiB.

use super::aim::{self, walk_to};
use super::class::Class;
use super::layout::{blocks, open, pages, words_of, GIB_BLOCKS};
use super::reading::used_pages;
use super::reserved;
use super::trial::{Failure, Trial};
use crate::command::Command;
use crate::random::Random;
use mpt_monitor::{Address, Kind, Privilege, Register, Table, PAGE_WORDS};

/// What is changed.
#[derive(Clone, Copy, Debug, PartialEq, Eq, PartialOrd, Ord)]
pub enum Target {
    Flat,
    Pieces,
    Link,
    L1,
    /// An entry of a root that is past the last block.
    Tail,
    /// A word of a page that is not in use.
    Free,
    Slot,
    /// The register that a lookup is given.
    Register,
    /// The address that it is given.
    Address,
}

impl Target {
    pub const ALL: [Target; 9] = [
        Target::Flat,
        Target::Pieces,
        Target::Link,
        Target::L1,
        Target::Tail,
        Target::Free,
        Target::Slot,
        Target::Register,
        Target::Address,
    ];

    pub fn name(self) -> &'static str {
        match self {
            Target::Flat => "a 1G entry",
            Target::Pieces => "a TYPE 6 entry",
            Target::Link => "a TYPE 4 entry",
            Target::L1 => "an L1 entry",
            Target::Tail => "an entry past the last block",
            Target::Free => "a word of a free page",
            Target::Slot => "a slot",
            Target::Register => "a register looked up",
            Target::Address => "an address looked up",
        }
    }
}

/// All bits of one word, or one bit of each entry of a GiB, if the table is sound and has such a word.
pub fn sweep(trial: &mut Trial, random: &mut Random) -> Result<(), Failure> {
    if used_pages(trial.table()).is_none() {
        return Ok(());
    }
    let target = random.pick(&Target::ALL);
    match target {
        Target::Slot => slot(trial, random),
        Target::Flat if random.percent(50) => flat_gib(trial, random),
        Target::Register | Target::Address => arguments(trial, random, target),
        _ => match word_of(random, trial.table(), target) {
            Some(index) => word(trial, random, target, index),
            None => Ok(()),
        },
    }
}

/// Some word of a kind.
fn word_of(random: &mut Random, table: &Table, target: Target) -> Option<usize> {
    let of_type = |types: std::ops::RangeInclusive<u64>| -> Vec<usize> {
        let fits = |index: &usize| types.contains(&(table.words()[*index] >> 44));
        aim::root_words(table).into_iter().filter(fits).collect()
    };
    let all: Vec<usize> = match target {
        Target::Flat => of_type(0..=3),
        Target::Pieces => of_type(6..=6),
        Target::Link => of_type(4..=4),
        Target::L1 => aim::l1_pages(table).into_iter().map(|page| page + random.edge(512) as usize).collect(),
        Target::Tail => {
            let tail = |register: Register| words_of(table, register.root().0).map(|at| at.start + blocks(table));
            open(table).filter(|_| blocks(table) < PAGE_WORDS).filter_map(tail).collect()
        }
        _ => {
            let used = used_pages(table)?;
            let free = |page: &usize| !used.contains(&(table.frame().first.0 + *page as u64));
            let word = |page: usize| page * PAGE_WORDS + random.edge(512) as usize;
            (0..pages(table)).filter(free).map(word).collect()
        }
    };
    (!all.is_empty()).then(|| all[random.edge(all.len() as u64) as usize])
}

fn word(trial: &mut Trial, random: &mut Random, target: Target, index: usize) -> Result<(), Failure> {
    let good = trial.table().words()[index];
    let walk = walk_to(trial.table(), index);
    for bit in 0..64 {
        trial.obey(Command::Poke { index, word: good ^ 1 << bit })?;
        trial.obey(Command::Sound)?;
        if let Some(walk) = walk {
            for _ in 0..2 {
                trial.obey(aim::lookup(random, walk, bit))?;
            }
        }
        let harmless = aim::harmless(random, trial.table());
        trial.obey(harmless)?;
        trial.tally.note(Class::Bit(target, bit as u8));
    }
    trial.obey(Command::Poke { index, word: good })?;
    match target {
        Target::L1 => reserved::sweep(trial, random, index),
        _ => Ok(()),
    }
}

/// One bit of each entry of a GiB whose entries are all of 1G types, if there is one.
fn flat_gib(trial: &mut Trial, random: &mut Random) -> Result<(), Failure> {
    let table = trial.table();
    let all_flat = |first: &usize| table.words()[*first..*first + GIB_BLOCKS].iter().all(|entry| entry >> 44 < 4);
    let first_of_gibs = aim::root_words(table).into_iter().filter(|index| index % GIB_BLOCKS == 0);
    let gibs: Vec<usize> = first_of_gibs.filter(all_flat).collect();
    if gibs.is_empty() {
        return Ok(());
    }
    let first = random.pick(&gibs);
    for nth in 0..GIB_BLOCKS {
        let (index, bit) = (first + nth, random.below(64));
        let good = trial.table().words()[index];
        trial.obey(Command::Poke { index, word: good ^ 1 << bit })?;
        trial.obey(Command::Sound)?;
        let harmless = aim::harmless(random, trial.table());
        trial.obey(harmless)?;
        trial.obey(Command::Poke { index, word: good })?;
        trial.tally.note(Class::AmongFlat(nth));
    }
    Ok(())
}

/// The register of an open slot.
fn slot(trial: &mut Trial, random: &mut Random) -> Result<(), Failure> {
    let table = trial.table();
    let open: Vec<usize> = (0..8).filter(|&slot| table.slots()[slot] != 0).collect();
    if open.is_empty() {
        return Ok(());
    }
    let index = open[random.edge(open.len() as u64) as usize];
    let good = table.slots()[index];
    for bit in 0..64 {
        trial.obey(Command::SetSlot { index, register: Register(good ^ 1 << bit) })?;
        trial.obey(Command::Sound)?;
        let harmless = aim::harmless(random, trial.table());
        trial.obey(harmless)?;
        trial.tally.note(Class::Bit(Target::Slot, bit as u8));
    }
    trial.obey(Command::SetSlot { index, register: Register(good) }).map(drop)
}

/// Lookups at a page that may be read, if there is one: a wrong register or address is then seen.
fn arguments(trial: &mut Trial, random: &mut Random, target: Target) -> Result<(), Failure> {
    let table = trial.table();
    let registers: Vec<Register> = open(table).collect();
    let register = if registers.is_empty() { Register::EMPTY } else { random.pick(&registers) };
    let address = allowed(random, table, register).unwrap_or(0) | random.edge(4096);
    for bit in 0..64 {
        let flip = |wanted: Target| u64::from(target == wanted) << bit;
        let lookup = |privilege, kind| Command::Lookup {
            register: Register(register.0 ^ flip(Target::Register)),
            privilege,
            kind,
            address: Address(address ^ flip(Target::Address)),
        };
        trial.obey(lookup(Privilege::User, Kind::Itself(mpt_monitor::Access::Load)))?;
        trial.obey(lookup(random.pick(&Privilege::ALL), super::generate::kind(random)))?;
        trial.tally.note(Class::Bit(target, bit as u8));
    }
    // Bare with one bit, too
    if target == Target::Register {
        for bit in 0..64 {
            let register = Register(1 << bit);
            let privilege = random.pick(&Privilege::ALL);
            let kind = super::generate::kind(random);
            trial.obey(Command::Lookup { register, privilege, kind, address: Address(address) })?;
        }
    }
    Ok(())
}

/// A page in a block that a domain may read, at the block's first piece or page.
fn allowed(random: &mut Random, table: &Table, register: Register) -> Option<u64> {
    let entries = super::layout::entries(table, register)?;
    let read: Vec<u64> = (0..)
        .zip(entries)
        .filter(|(_, entry)| matches!((**entry >> 44, **entry & 3), (1..=3, _) | (6, 1..=3) | (4, _)))
        .map(|(block, _)| block << 25)
        .collect();
    (!read.is_empty()).then(|| random.pick(&read))
}
