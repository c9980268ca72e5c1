//! Lent memory: its bounds, its pages by index, and which of them are in use.

use crate::Frame;

/// A frame within its bounds.
#[derive(Clone, Copy)]
pub struct Lent {
    pub paw: u32,
    pub first: u64,
    pub pages: u64,
}

impl Lent {
    #[inline]
    pub fn new(frame: Frame, words: usize) -> Option<Lent> {
        let Frame { paw, first } = frame;
        let pages = words as u64 / 512;
        if paw.wrapping_sub(30) > 4 || words % 512 != 0 || pages.wrapping_sub(2) > 254 {
            return None;
        }
        let room = (1u64 << (paw - 12)) - pages;
        (first.wrapping_sub(1) < room).then_some(Lent { paw: paw as u32, first, pages })
    }

    /// The index of a page number among the lent pages.
    #[inline]
    pub fn index(&self, page: u64) -> Option<usize> {
        let index = page.wrapping_sub(self.first);
        (index < self.pages).then_some(index as usize)
    }

    /// Entries of a root that are read.
    #[inline]
    pub fn blocks(&self) -> usize {
        1 << (self.paw - 25)
    }
}

/// One bit for each of at most 256 pages.
#[derive(Clone, Copy, Default)]
pub struct Used([u64; 4]);

impl Used {
    /// Marks a page; false if it was marked before.
    #[inline]
    pub fn mark(&mut self, page: usize) -> bool {
        let (group, bit) = ((page / 64) & 3, 1 << (page % 64));
        let fresh = self.0[group] & bit == 0;
        self.0[group] |= bit;
        fresh
    }

    /// The marked pages, lowest first.
    #[inline]
    pub fn marked(self) -> impl Iterator<Item = usize> {
        let bits = |group: u64| {
            let rest = move |left: &u64| Some(left & left.wrapping_sub(1));
            std::iter::successors(Some(group), rest)
                .take_while(|left| *left != 0)
                .map(|left| left.trailing_zeros() as usize)
        };
        (0..).step_by(64).zip(self.0).flat_map(move |(from, group)| bits(group).map(move |bit| from + bit))
    }

    /// The lowest page below `pages` that is not marked, now marked.
    #[inline]
    pub fn take_lowest(&mut self, pages: u64) -> Option<usize> {
        let group = self.0.iter().position(|&bits| bits != u64::MAX)?;
        let page = group * 64 + self.0[group].trailing_ones() as usize;
        (page < pages as usize && self.mark(page)).then_some(page)
    }
}

/// The fields of a register.
pub const PPN: u64 = (1 << 44) - 1;
pub const WPRI: u64 = 0x3FF << 44;

/// The two reserved bits of each of an L1 entry's 16 fields.
pub const RESERVED: u64 = 0xCCCC_CCCC_CCCC_CCCC;

#[inline]
pub fn sdid(register: u64) -> u64 {
    register >> 54 & 63
}
