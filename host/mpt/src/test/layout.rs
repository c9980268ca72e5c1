//! Words of a table by what they are for.

use mpt_monitor::{Register, Table, PAGE_WORDS};
use std::ops::Range;

/// The info of an L2 entry, and the PPN of a register.
pub const INFO: u64 = (1 << 44) - 1;
/// The permission bits of an L1 entry's 16 fields.
pub const FIELDS: u64 = 0x3333_3333_3333_3333;
/// The reserved bits of these fields.
pub const RESERVED: u64 = !FIELDS;

/// The entries of a GiB.
pub const GIB_BLOCKS: usize = 32;

/// An L2 entry of TYPE 0 to 3.
pub fn flat(permission: u64) -> u64 {
    permission << 44
}

/// An L2 entry of TYPE 6.
pub fn pieces(info: u64) -> u64 {
    6 << 44 | info
}

/// An L2 entry of TYPE 4.
pub fn link(page: u64) -> u64 {
    4 << 44 | page
}

/// An L1 entry of one permission.
pub fn spread(permission: u64) -> u64 {
    permission * 0x1111_1111_1111_1111
}

/// The page that a TYPE 4 entry names.
pub fn linked(entry: u64) -> Option<u64> {
    (entry >> 44 == 4).then_some(entry & INFO)
}

pub fn pages(table: &Table) -> usize {
    table.words().len() / PAGE_WORDS
}

/// Entries of a root that are read; the frame must be within its bounds.
pub fn blocks(table: &Table) -> usize {
    1 << (table.frame().paw - 25)
}

/// Whether the frame keeps its bounds, so that there are entries to be read.
pub fn within_bounds(table: &Table) -> bool {
    let frame = table.frame();
    second::Frame { paw: frame.paw, first: frame.first.0 }.within_bounds(table.words())
}

/// The registers of the open slots.
pub fn open(table: &Table) -> impl Iterator<Item = Register> + '_ {
    table.slots().iter().filter(|&&word| word != 0).map(|&word| Register(word))
}

/// Where a page's words lie, if it is lent.
pub fn words_of(table: &Table, page: u64) -> Option<Range<usize>> {
    let nth = usize::try_from(page.checked_sub(table.frame().first.0)?).ok()?;
    (nth < pages(table)).then(|| nth * PAGE_WORDS..(nth + 1) * PAGE_WORDS)
}

/// The entries of a domain's root that are read, if it is lent.
pub fn entries(table: &Table, register: Register) -> Option<&[u64]> {
    let at = words_of(table, register.root().0)?;
    Some(&table.words()[at][..blocks(table)])
}
