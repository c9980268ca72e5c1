//! Calls whose answer hangs on one word of the table, so that a wrong word is looked at.

use super::generate::kind;
use super::layout::{blocks, entries, linked, open, within_bounds, words_of};
use crate::command::Command;
use crate::random::Random;
use mpt_monitor::{Address, Edit, Permission, Privilege, Register, Sdid, Slot, Table, PAGE_WORDS};

/// The domain and the address of which a walk reads a word; the field of an L1 entry is free.
#[derive(Clone, Copy, Debug, PartialEq, Eq)]
pub struct Walk {
    pub register: Register,
    pub address: u64,
    /// In an L1 page: the field that the address chooses is a bit's number divided by 4.
    pub in_l1: bool,
}

/// The walk that reads a word, as the table stands; nothing if none does.
pub fn walk_to(table: &Table, index: usize) -> Option<Walk> {
    if !within_bounds(table) {
        return None;
    }
    let page = table.frame().first.0 + (index / PAGE_WORDS) as u64;
    let entry = index % PAGE_WORDS;
    let in_l1 = |register: Register| {
        let block = entries(table, register)?.iter().position(|&word| linked(word) == Some(page))?;
        Some(Walk { register, address: (block as u64) << 25 | (entry as u64) << 16, in_l1: true })
    };
    let root = open(table).find(|register| register.root().0 == page && entry < blocks(table));
    let in_root = root.map(|register| Walk { register, address: (entry as u64) << 25, in_l1: false });
    in_root.or_else(|| open(table).find_map(in_l1))
}

/// A lookup by that walk: of the field that holds a bit, or of any page of the block.
pub fn lookup(random: &mut Random, walk: Walk, bit: u64) -> Command {
    let within = match walk.in_l1 {
        true => (bit / 4) << 12,
        // of a TYPE 6 entry, the piece of the bit
        false if bit < 32 => (bit / 2) << 21 | random.below(1 << 21),
        false => random.below(1 << 25),
    };
    let privilege = random.pick(&Privilege::ALL[..2]);
    Command::Lookup { register: walk.register, privilege, kind: kind(random), address: Address(walk.address | within) }
}

/// A call that a sound table refuses or that stores nothing, so that only a table that is not sound is
/// told apart by it, and no word changes.
pub fn harmless(random: &mut Random, table: &Table) -> Command {
    let slot_where = |open: bool| (0..8).find(|&slot| (table.slots()[slot as usize] != 0) == open);
    match random.below(3) {
        0 => Command::Close { slot: Slot(slot_where(false).unwrap_or(8)) },
        1 => Command::Open { slot: Slot(slot_where(true).unwrap_or(8)), sdid: Sdid(random.below(66)) },
        _ => Command::Edit(Edit {
            slot: Slot(slot_where(true).unwrap_or(8)),
            start: Address(random.below(1 << 18) << 12),
            length: 4096,
            permission: Permission::None,
            limit: 0,
        }),
    }
}

/// Where the words of any root's entries that are read lie, by number of the block.
pub fn root_words(table: &Table) -> Vec<usize> {
    let words = |register: Register| words_of(table, register.root().0).map(|at| at.start..at.start + blocks(table));
    open(table).filter_map(words).flatten().collect()
}

/// Where the words of the L1 pages in use lie, page by page.
pub fn l1_pages(table: &Table) -> Vec<usize> {
    let named = |index: &usize| linked(table.words()[*index]).and_then(|page| words_of(table, page));
    root_words(table).iter().filter_map(named).map(|at| at.start).collect()
}

#[cfg(test)]
mod tests {
    use super::*;
    use mpt_monitor::{Frame, PageNumber};

    #[test]
    fn the_walk_that_reads_a_word() {
        let mut table = Table::new(Frame { paw: 30, first: PageNumber(0x100) }, 4);
        let register = Register(0x1040_0000_0000_0101);
        table.slots_mut()[3] = register.0;
        table.words_mut()[512 + 7] = 4 << 44 | 0x103;
        assert_eq!(walk_to(&table, 512 + 9), Some(Walk { register, address: 9 << 25, in_l1: false }));
        assert_eq!(walk_to(&table, 1536 + 511), Some(Walk { register, address: 7 << 25 | 511 << 16, in_l1: true }));
        assert_eq!(walk_to(&table, 5), None, "a free page");
        assert_eq!(walk_to(&table, 512 + 32), None, "an entry past the last block");
        assert_eq!((root_words(&table).len(), l1_pages(&table)), (32, vec![1536]));
    }
}
