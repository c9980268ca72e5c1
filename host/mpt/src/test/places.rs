//! Where a sequence works: a few addresses to come back to, so that edits meet each other, and the
//! bounds of document 01.

use super::layout::{entries, linked, open, pages, within_bounds};
use crate::random::Random;
use mpt_monitor::{Permission, Table};
use std::ops::Range;

/// Bytes in a page, an L1 entry's reach, a piece, a block and a GiB.
pub const UNITS: [u64; 5] = [1 << 12, 1 << 16, 1 << 21, 1 << 25, 1 << 30];
const PAGE: u64 = UNITS[0];

/// A range of a GiB that is of one permission but for it: an edit over it with that permission makes
/// the GiB whole.
#[derive(Clone, Debug)]
pub struct Odd {
    pub slot: u64,
    pub range: Range<u64>,
    pub rest: Permission,
    /// Whether its block has an L1 page.
    pub in_l1: bool,
}

pub struct Places {
    pub space: u64,
    lent: Range<u64>,
    hot: [u64; 4],
    pub odd: Vec<Odd>,
}

impl Places {
    pub fn new(random: &mut Random, table: &Table, odd: Vec<Odd>) -> Places {
        let space = 1 << table.frame().paw.clamp(30, 34);
        let first = table.frame().first.0.saturating_mul(PAGE).min(space - PAGE);
        let lent = first..(first + pages(table) as u64 * PAGE).min(space);
        let block = random.edge(space >> 25) << 25;
        let linked = linked_block(random, table).map_or(block, |block| block << 25);
        Places { space, hot: [lent.start, random.edge(space >> 30) << 30, block, linked], lent, odd }
    }

    /// An address near a hot one, or anywhere; a multiple of 4,096.
    pub fn page_address(&self, random: &mut Random) -> u64 {
        let unit = random.pick(&UNITS);
        let base = if random.percent(80) { random.pick(&self.hot) } else { random.below(self.space) };
        let base = if random.percent(60) { base / unit * unit } else { base & !(PAGE - 1) };
        let step = random.below(5) * unit;
        let address = if random.percent(20) { base.saturating_sub(step) } else { base + step };
        address % self.space
    }

    /// A block that a hot address lies in, or any.
    pub fn block(&self, random: &mut Random) -> u64 {
        self.page_address(random) >> 25
    }

    /// A bound: of the lent pages, of the address space, or of a unit near a hot address.
    pub fn bound(&self, random: &mut Random) -> u64 {
        match random.below(8) {
            0 | 1 => self.lent.start,
            2 | 3 => self.lent.end,
            4 => self.space,
            _ => {
                let unit = random.pick(&UNITS[1..]);
                (self.page_address(random) / unit * unit + random.below(2) * unit).min(self.space)
            }
        }
    }

    /// A byte just below a bound or at it, sometimes a page further.
    pub fn byte_at_bound(&self, random: &mut Random) -> u64 {
        let further = random.pick(&[0, 0, 0, PAGE, PAGE.wrapping_neg()]);
        self.bound(random).wrapping_sub(random.below(2)).wrapping_add(further)
    }

    /// All of some unit but its first and last page.
    pub fn inside(&self, random: &mut Random) -> Range<u64> {
        let unit = random.pick(&UNITS[1..]);
        let start = self.page_address(random) / unit * unit;
        start + PAGE..start + unit - PAGE
    }

    /// A range from one bound to another or to just beside it: at least a page, in the address space.
    pub fn range(&self, random: &mut Random) -> Range<u64> {
        let near = |random: &mut Random| {
            let bound = self.bound(random);
            match random.below(4) {
                0 => bound.saturating_sub(PAGE),
                1 => (bound + PAGE).min(self.space),
                _ => bound,
            }
        };
        let one = near(random);
        let other = match random.below(4) {
            0 => one + PAGE,
            1 => one.saturating_sub(PAGE),
            _ => near(random),
        };
        let start = one.min(other).min(self.space - PAGE);
        start..one.max(other).min(self.space).max(start + PAGE)
    }
}

/// A block that an L1 page speaks for in some domain, if there is one.
fn linked_block(random: &mut Random, table: &Table) -> Option<u64> {
    if !within_bounds(table) {
        return None;
    }
    let of_root = |root: &[u64]| -> Vec<u64> {
        (0..).zip(root).filter(|(_, entry)| linked(**entry).is_some()).map(|(block, _)| block).collect()
    };
    let all: Vec<u64> = open(table).filter_map(|register| entries(table, register)).flat_map(of_root).collect();
    (!all.is_empty()).then(|| random.pick(&all))
}
