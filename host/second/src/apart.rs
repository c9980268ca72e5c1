//! Whether the domains are kept apart, page by page.
//!
//! Item 13 of document 02 asks for "a sound table, no page open to two domains, no table page open to any". Open is what may be
//! read, written or executed.

use crate::frame::{Frame, Register};
use crate::map::{block_map, piece_map, BLOCK_PAGES};
use crate::sound::used_pages;
use crate::walk::{may, Need};
use crate::{Permission, Refusal, Slots};

/// How much is asked.
#[derive(Clone, Copy, Debug, PartialEq, Eq)]
pub enum Strength {
    /// As the paper asks it.
    Strict,
    /// Less, so that domains may share program code: a page that two domains have open neither may write, and a table page
    /// none may write.
    Sharing,
}

/// Of the lowest page at fault, the lowest slot or slots, and whether one of these may write it.
#[derive(Clone, Copy, Debug, PartialEq, Eq)]
pub enum Separation {
    Apart,
    Table { page: u64, slot: usize, written: bool },
    Shared { page: u64, slots: [usize; 2], written: bool },
}

/// What each slot may do with a page; none if it is empty.
type Row = [Permission; 8];

pub fn apart(frame: Frame, words: &[u64], slots: &Slots, strength: Strength) -> Result<Separation, Refusal> {
    if !frame.within_bounds(words) {
        return Err(1);
    }
    let tables = used_pages(frame, words, slots).ok_or(3u64)?;
    for block in 0..frame.blocks() {
        if let Some(fault) = fault_in_block(frame, words, slots, strength, &tables, block) {
            return Ok(fault);
        }
    }
    Ok(Separation::Apart)
}

fn fault_in_block(
    frame: Frame,
    words: &[u64],
    slots: &Slots,
    strength: Strength,
    tables: &[u64],
    block: usize,
) -> Option<Separation> {
    let entry = |register| frame.page(words, Register::from_word(register).ppn).expect("roots are lent")[block];
    let entries = slots.map(|register| if register == 0 { 0 } else { entry(register) });
    let first = (block * BLOCK_PAGES) as u64;
    let tables: Vec<u64> = tables.iter().copied().filter(|page| (page - page % BLOCK_PAGES as u64) == first).collect();
    let coarse = tables.is_empty() && entries.iter().all(|&entry| piece_map(entry).is_some());
    let maps = entries.map(|entry| match piece_map(entry) {
        Some(pieces) if coarse => pieces,
        _ => block_map(frame, words, entry),
    });
    let pages = (first..).step_by(BLOCK_PAGES / maps[0].len());
    // a page of no table whose row is that of the page before it, which is not at fault, is not either
    let mut before = [0; 8];
    pages.zip(0..maps[0].len()).find_map(|(page, nth)| {
        let row = std::array::from_fn(|slot| maps[slot][nth]);
        let (is_table, is_known) = (tables.contains(&page), row == before);
        before = row;
        if is_known && !is_table {
            return None;
        }
        fault(page, row, is_table, strength)
    })
}

/// What is at fault with a page: a table's first, and then the pairs in order.
fn fault(page: u64, row: Row, is_table: bool, strength: Strength) -> Option<Separation> {
    let mut open = (0..8).filter(|&slot| is_open(row[slot]));
    let (first, second) = (open.next()?, open.next());
    let table = || {
        let slot = (first..8).find(|&slot| may_not(strength, row[slot]))?;
        Some(Separation::Table { page, slot, written: writes(row[slot]) })
    };
    let pair = || {
        second?;
        let pairs = (first..8).flat_map(|one| (one + 1..8).map(move |other| [one, other]));
        let slots = pairs.into_iter().find(|&[one, other]| in_conflict(strength, row[one], row[other]))?;
        Some(Separation::Shared { page, slots, written: slots.iter().any(|&slot| writes(row[slot])) })
    };
    is_table.then(table).flatten().or_else(pair)
}

fn is_open(permission: Permission) -> bool {
    may(permission, Need::Read) || may(permission, Need::Write) || may(permission, Need::Execute)
}

fn writes(permission: Permission) -> bool {
    may(permission, Need::Write)
}

/// What a domain may not have of a table page.
fn may_not(strength: Strength, permission: Permission) -> bool {
    match strength {
        Strength::Strict => is_open(permission),
        Strength::Sharing => writes(permission),
    }
}

/// "no page open to two domains"; or, of two to which it is open, one may write it.
fn in_conflict(strength: Strength, one: Permission, other: Permission) -> bool {
    let both = is_open(one) && is_open(other);
    match strength {
        Strength::Strict => both,
        Strength::Sharing => both && (writes(one) || writes(other)),
    }
}
