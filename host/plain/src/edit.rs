//! The edit, with shortcuts by words and blocks. Only the blocks at the two ends of the range can
//! need a new page, so the room is known before the first store.

use crate::block::*;
use crate::check::used_pages;
use crate::lent::{sdid, Lent, Used, PPN};
use crate::*;
use std::ops::ControlFlow::{self, Break, Continue};

/// Pages and blocks in a GiB.
const GIB_PAGES: u64 = 1 << 18;
const GIB_BLOCKS: u64 = 32;

pub fn edit(frame: Frame, words: &mut [u64], slots: &[u64; 8], asked: Asked) -> Result<Edited, Refusal> {
    let Asked { slot, start, length, permission, limit } = asked;
    if permission > 3 {
        return Err(OUTSIDE_KIND);
    }
    let lent = Lent::new(frame, words.len()).ok_or(BAD_FRAME)?;
    let used = used_pages(lent, words, slots).ok_or(NOT_SOUND)?;
    if slot > 7 || slots[slot as usize] == 0 {
        return Err(BAD_SLOT);
    }
    let (from, to) = pages_of_range(lent, start, length).ok_or(BAD_RANGE)?;
    if permission == 3 && slot != 0 {
        return Err(NO_WRITE_EXECUTE);
    }
    if permission != 0 && from < lent.first + lent.pages && lent.first < to {
        return Err(MEETS_LENT);
    }
    let register = slots[slot as usize];
    let root = ((register & PPN) - lent.first) as usize * 512;
    let mut edit = Edit { lent, words, root, from, to, permission, new: [0; 2], filled: 0, left: limit, last: 0 };
    if !edit.reserve(used) {
        return Err(NO_PAGE);
    }
    Ok(edit.answer(limit, sdid(register), start))
}

/// The page numbers of a range, if it is one.
#[inline]
fn pages_of_range(lent: Lent, start: u64, length: u64) -> Option<(u64, u64)> {
    let end = start.checked_add(length)?;
    let fits = length != 0 && (start | length) & 4095 == 0 && end <= 1 << lent.paw;
    fits.then_some((start >> 12, end >> 12))
}

struct Edit<'a> {
    lent: Lent,
    words: &'a mut [u64],
    root: usize,
    from: u64,
    to: u64,
    permission: u64,
    /// Where the new pages begin, and how many of them are filled.
    new: [usize; 2],
    filled: usize,
    left: u64,
    /// The word stored last.
    last: usize,
}

impl Edit<'_> {
    /// Finds the new pages; false if there are too few.
    fn reserve(&mut self, mut used: Used) -> bool {
        let (low, high) = (self.from / BLOCK, (self.to - 1) / BLOCK);
        let mut needed = self.needs_page(low) as usize;
        needed += (high != low && self.needs_page(high)) as usize;
        for place in &mut self.new[..needed] {
            match used.take_lowest(self.lent.pages) {
                Some(page) => *place = page * 512,
                None => return false,
            }
        }
        true
    }

    fn needs_page(&self, block: u64) -> bool {
        let entry = self.words[self.root + block as usize];
        entry >> 44 != 4 && pieces_of_flat(entry, self.span(block), self.permission).is_none()
    }

    #[inline]
    fn span(&self, block: u64) -> Span {
        Span::of(block, self.from, self.to)
    }

    /// Runs, and says how many stores it made, whether these were all, and the fence.
    fn answer(&mut self, limit: u64, sdid: u64, start: u64) -> Edited {
        let all = self.run().is_continue();
        let stores = limit - self.left;
        let in_root = (self.root..self.root + self.lent.blocks()).contains(&self.last);
        let one_page = self.to - self.from == 1;
        let fence = match stores {
            0 => Fence::None,
            1 if all && one_page && !in_root => Fence::Address { address: start, sdid },
            _ => Fence::Domain { sdid },
        };
        Edited { stores, all, fence }
    }

    fn run(&mut self) -> ControlFlow<()> {
        for gib in self.from / GIB_PAGES..=(self.to - 1) / GIB_PAGES {
            let whole = self.from <= gib * GIB_PAGES && (gib + 1) * GIB_PAGES <= self.to;
            let pieces = if whole { None } else { self.pieces(gib) };
            match pieces {
                None => self.one_permission(gib)?,
                Some(pieces) => self.mixed(gib, &pieces)?,
            }
        }
        Continue(())
    }

    /// TYPE 6 info of each block of a GiB after the edit, nothing for TYPE 4; nothing at all if
    /// the GiB is of one permission, which is then the asked one.
    fn pieces(&self, gib: u64) -> Option<[Option<u64>; 32]> {
        let asked = Some(spread2(self.permission));
        let root = &self.words[self.root..][..512];
        let touched = self.from / BLOCK..=(self.to - 1) / BLOCK;
        let mut same = true;
        let mut all = [None; 32];
        for (place, block) in all.iter_mut().zip(gib * GIB_BLOCKS..) {
            let entry = root[block as usize & 511];
            *place = if entry >> 44 == 4 || touched.contains(&block) {
                self.block_pieces(entry, self.span(block))
            } else {
                Some(flat_info(entry))
            };
            same &= *place == asked;
        }
        (!same).then_some(all)
    }

    #[inline]
    fn block_pieces(&self, entry: u64, span: Span) -> Option<u64> {
        if span.is_whole() {
            Some(spread2(self.permission))
        } else if entry >> 44 == 4 {
            let page = self.table(entry);
            let page = self.words[page..][..512].try_into().expect("512 words");
            pieces_of_table(page, span, self.permission)
        } else {
            pieces_of_flat(entry, span, self.permission)
        }
    }

    /// Where the L1 page begins that a TYPE 4 entry names.
    #[inline]
    fn table(&self, entry: u64) -> usize {
        ((entry & PPN) - self.lent.first) as usize * 512
    }

    fn one_permission(&mut self, gib: u64) -> ControlFlow<()> {
        let at = self.root + (gib * GIB_BLOCKS) as usize;
        let want = self.permission << 44;
        if self.left < GIB_BLOCKS {
            return (at..at + 32).try_for_each(|index| self.change(index, want));
        }
        let entries = &mut self.words[at..at + 32];
        self.left -= entries.iter().filter(|entry| **entry != want).count() as u64;
        entries.fill(want);
        self.last = at;
        Continue(())
    }

    fn mixed(&mut self, gib: u64, pieces: &[Option<u64>; 32]) -> ControlFlow<()> {
        for (block, pieces) in (gib * GIB_BLOCKS..).zip(pieces) {
            let index = self.root + block as usize;
            let entry = self.words[index];
            match pieces {
                Some(info) => self.change(index, 6 << 44 | info)?,
                None if entry >> 44 == 4 => self.change_table(self.table(entry), self.span(block))?,
                None => self.add_table(index, self.span(block))?,
            }
        }
        Continue(())
    }

    #[inline]
    fn change(&mut self, index: usize, word: u64) -> ControlFlow<()> {
        if self.words[index] == word {
            return Continue(());
        }
        if self.left == 0 {
            return Break(());
        }
        self.left -= 1;
        self.last = index;
        self.words[index] = word;
        Continue(())
    }

    fn change_table(&mut self, page: usize, span: Span) -> ControlFlow<()> {
        if span.is_empty() {
            return Continue(());
        }
        for entry in span.entries() {
            let index = page + entry as usize;
            self.change(index, changed(self.words[index], entry, span, self.permission))?;
        }
        Continue(())
    }

    fn add_table(&mut self, index: usize, span: Span) -> ControlFlow<()> {
        let entry = self.words[index];
        let page = self.new[self.filled];
        self.filled += 1;
        let place: &mut [u64; 512] = (&mut self.words[page..][..512]).try_into().expect("512 words");
        if self.left < 512 {
            let mut table = [0; 512];
            fill_table(&mut table, entry, span, self.permission);
            let made = self.left as usize;
            place[..made].copy_from_slice(&table[..made]);
            self.left = 0;
            return Break(());
        }
        fill_table(place, entry, span, self.permission);
        self.left -= 512;
        self.change(index, 4 << 44 | (self.lent.first + page as u64 / 512))
    }
}
