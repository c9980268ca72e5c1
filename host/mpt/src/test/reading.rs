//! How tables read, page by page: what demand 3 is measured by.
//!
//! A page reads by its permission alone: the four permissions allow different accesses, and in a
//! sound table no walk inside the address space faults but for its permission. So two tables read
//! the same at a page, for all kinds of access together, if the walk finds the same permission.

use mpt_monitor::{Edit, Register, Table, PAGE_WORDS};

/// Pages in a block.
const BLOCK_PAGES: u64 = 8192;

pub fn frame(table: &Table) -> second::Frame {
    second::Frame { paw: table.frame().paw, first: table.frame().first.0 }
}

/// The pages in use, if the frame is within bounds and the table sound.
pub fn used_pages(table: &Table) -> Option<Vec<u64>> {
    let within = frame(table).within_bounds(table.words());
    within.then(|| second::used_pages(frame(table), table.words(), table.slots())).flatten()
}

/// How many pages are free in a sound table.
pub fn free_count(table: &Table) -> Option<usize> {
    used_pages(table).map(|used| table.words().len() / PAGE_WORDS - used.len())
}

/// One block of one domain in a sound table.
#[derive(Clone, Copy)]
struct Block<'a> {
    table: &'a Table,
    entry: u64,
}

impl<'a> Block<'a> {
    fn of(table: &'a Table, register: Register, block: u64) -> Block<'a> {
        let root = frame(table).page(table.words(), register.root().0).expect("a sound table's root is lent");
        Block { table, entry: root[block as usize] }
    }

    /// The L1 page that the entry names, if it is TYPE 4.
    fn l1_page(self) -> Option<&'a [u64]> {
        let named = self.entry >> 44 == 4;
        named.then(|| frame(self.table).page(self.table.words(), self.entry & ((1 << 44) - 1))).flatten()
    }

    /// The same entry, and the same L1 page if there is one: then the pages read the same.
    fn is_word_for_word(self, other: Block) -> bool {
        self.entry == other.entry && self.l1_page() == other.l1_page()
    }

    fn permissions(self) -> Vec<u8> {
        second::block_map(frame(self.table), self.table.words(), self.entry)
    }
}

/// Every open slot's register with every block of the address space.
fn domains_and_blocks(table: &Table) -> impl Iterator<Item = (Register, u64)> + '_ {
    let open = table.slots().iter().filter(|&&word| word != 0).map(|&word| Register(word));
    open.flat_map(move |register| (0..frame(table).blocks() as u64).map(move |block| (register, block)))
}

/// "every address of every domain reads as before the first call or as after the edit made whole
/// at once" (document 00, the third demand), asked of every page.
pub fn reads_as_before_or_after(now: &Table, before: &Table, after: &Table) -> Result<(), String> {
    for (register, block) in domains_and_blocks(now) {
        let [now, before, after] = [now, before, after].map(|table| Block::of(table, register, block));
        if now.is_word_for_word(before) || now.is_word_for_word(after) {
            continue;
        }
        let pages = now.permissions();
        let wrong = (before.permissions().iter().zip(after.permissions()).zip(&pages))
            .position(|((before, after), now)| now != before && *now != after);
        if let Some(page) = wrong {
            let page = block * BLOCK_PAGES + page as u64;
            return Err(format!("page {page:#x} of domain {} reads as neither before nor after", register.sdid().0));
        }
    }
    Ok(())
}

/// Permissions are the same if every page of every domain reads the same.
pub fn reads_the_same(one: &Table, other: &Table) -> Result<(), String> {
    reads_as_before_or_after(one, other, other).map_err(|_| "the end permissions differ".to_string())
}

/// After a whole edit the range has its permission, and every other page reads as before.
pub fn reads_as_asked(after: &Table, before: &Table, edit: Edit) -> Result<(), String> {
    let edited = Register(after.slots()[edit.slot.0 as usize]);
    let (from, to) = (edit.start.0 >> 12, (edit.start.0 + edit.length) >> 12);
    for (register, block) in domains_and_blocks(after) {
        let [after, before] = [after, before].map(|table| Block::of(table, register, block));
        let base = block * BLOCK_PAGES;
        let inside = |page: u64| (page.clamp(base, base + BLOCK_PAGES) - base) as usize;
        let met = register == edited && inside(from) < inside(to);
        if !met && after.is_word_for_word(before) {
            continue;
        }
        let mut wanted = before.permissions();
        if met {
            wanted[inside(from)..inside(to)].fill(edit.permission.code() as u8);
        }
        if after.permissions() != wanted {
            return Err(format!("block {block} of domain {} does not read as asked", register.sdid().0));
        }
    }
    Ok(())
}

#[cfg(test)]
mod tests {
    use super::*;
    use crate::programs::SECOND;
    use mpt_monitor::{Address, Frame, PageNumber, Permission, Sdid, Slot};

    const EDIT: Edit = Edit {
        slot: Slot(0),
        start: Address(0x4000_0000),
        length: 0x3000,
        permission: Permission::Rw,
        limit: u64::MAX,
    };

    fn before_and_after() -> (Table, Table) {
        let mut before = Table::new(Frame { paw: 32, first: PageNumber(0x80000) }, 4);
        let monitor = SECOND.monitor();
        monitor.open(&mut before, Slot(0), Sdid(5)).unwrap();
        let mut after = before.clone();
        assert!(monitor.edit(&mut after, EDIT).unwrap().all);
        (before, after)
    }

    #[test]
    fn a_page_of_neither_side_is_seen() {
        let (before, after) = before_and_after();
        assert_eq!(reads_as_before_or_after(&before, &before, &after), Ok(()));
        assert_eq!(reads_as_before_or_after(&after, &before, &after), Ok(()));
        let mut now = after.clone();
        now.words_mut()[512] = 0x202;
        assert_eq!(reads_as_before_or_after(&now, &before, &after), Ok(()), "page 1 as before");
        now.words_mut()[512] = 0x212;
        assert!(reads_as_before_or_after(&now, &before, &after).is_err(), "page 1 is rx");
        now.words_mut()[512] = 0x2222;
        assert!(reads_as_before_or_after(&now, &before, &after).is_err(), "page 3 is rw");
    }

    #[test]
    fn an_edit_that_does_too_little_or_too_much_is_seen() {
        let (before, mut after) = before_and_after();
        assert_eq!(reads_as_asked(&after, &before, EDIT), Ok(()));
        assert!(reads_as_asked(&before, &before, EDIT).is_err());
        assert!(reads_the_same(&after, &before).is_err());
        after.words_mut()[0] = 1 << 44;
        assert!(reads_as_asked(&after, &before, EDIT).is_err());
    }
}
