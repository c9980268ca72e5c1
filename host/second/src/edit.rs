//! The edit: from the map to the store list, and the list made up to its limit.

use crate::frame::{Frame, Register, PAGE_BYTES, PAGE_WORDS};
use crate::map::{finished_form, gib_map, l1_entries, Form, BLOCK_PAGES, GIB_BLOCKS, GIB_PAGES};
use crate::sound::{free_pages, used_pages};
use crate::walk::L2;
use crate::{Permission, Refusal, Slots};

/// What an edit asks, but for its limit.
#[derive(Clone, Copy, Debug, PartialEq, Eq)]
pub struct Asked {
    pub slot: u64,
    pub start: u64,
    pub length: u64,
    pub permission: Permission,
}

/// One store: a word of the lent memory and what it becomes.
#[derive(Clone, Copy, Debug, PartialEq, Eq)]
pub struct Store {
    pub index: usize,
    pub word: u64,
}

/// The fence that a call asks for.
#[derive(Clone, Copy, Debug, PartialEq, Eq)]
pub enum Fence {
    None,
    Domain(u64),
    Address { address: u64, sdid: u64 },
}

/// The answer to an accepted edit.
#[derive(Clone, Copy, Debug, PartialEq, Eq)]
pub struct Edited {
    pub stores: u64,
    pub all: bool,
    pub fence: Fence,
}

/// Makes the first stores of the list up to the limit.
pub fn edit(frame: Frame, words: &mut [u64], slots: &Slots, asked: Asked, limit: u64) -> Result<Edited, Refusal> {
    let list = store_list(frame, words, slots, asked)?;
    let made = list.len().min(usize::try_from(limit).unwrap_or(usize::MAX));
    for store in &list[..made] {
        words[store.index] = store.word;
    }
    let register = Register::from_word(slots[asked.slot as usize]);
    let fence = fence(frame, words, register, asked, &list, made);
    Ok(Edited { stores: made as u64, all: made == list.len(), fence })
}

/// "Fence asked: no store made, none. Range of one page and a whole edit of one store into an L1
/// entry: that address and SDID. Otherwise the whole domain."
fn fence(frame: Frame, words: &[u64], register: Register, asked: Asked, list: &[Store], made: usize) -> Fence {
    let root = frame.word_index(words, register.ppn).expect("an open slot's root is lent");
    let in_root = |store: &Store| (root..root + frame.blocks()).contains(&store.index);
    match list {
        _ if made == 0 => Fence::None,
        [one] if asked.length == PAGE_BYTES && !in_root(one) => {
            Fence::Address { address: asked.start, sdid: register.sdid }
        }
        _ => Fence::Domain(register.sdid),
    }
}

/// The whole store list of an edit, or its refusal. Changes nothing.
pub fn store_list(frame: Frame, words: &[u64], slots: &Slots, asked: Asked) -> Result<Vec<Store>, Refusal> {
    if !frame.within_bounds(words) {
        return Err(1);
    }
    let used = used_pages(frame, words, slots).ok_or(3u64)?;
    if asked.slot > 7 || slots[asked.slot as usize] == 0 {
        return Err(4);
    }
    if range_refused(frame, asked) {
        return Err(5);
    }
    // item 6 of document 02: "refused with 10, tested after 5 and before 6"
    if asked.permission == 3 && (1..=7).contains(&asked.slot) {
        return Err(10);
    }
    if asked.permission != 0 && meets_lent(frame, words, asked) {
        return Err(6);
    }
    let root = Register::from_word(slots[asked.slot as usize]).ppn;
    let mut stores = Stores::new(frame, words, root, free_pages(frame, words, &used));
    for gib in asked.start >> 30..=(asked.start + asked.length - 1) >> 30 {
        stores.gib(gib as usize, asked);
    }
    if stores.short_of_pages {
        return Err(7);
    }
    Ok(stores.list)
}

fn range_refused(frame: Frame, asked: Asked) -> bool {
    let end = u128::from(asked.start) + u128::from(asked.length);
    asked.length == 0 || asked.start % PAGE_BYTES != 0 || asked.length % PAGE_BYTES != 0 || end > 1 << frame.paw
}

/// Whether the range and the lent pages have an address in common.
fn meets_lent(frame: Frame, words: &[u64], asked: Asked) -> bool {
    let lent = frame.lent_pages(words);
    let end = asked.start + asked.length;
    asked.start < lent.end * PAGE_BYTES && lent.start * PAGE_BYTES < end
}

/// The store list as it grows, block by block upward.
struct Stores<'a> {
    frame: Frame,
    words: &'a [u64],
    root: u64,
    free: std::vec::IntoIter<u64>,
    short_of_pages: bool,
    list: Vec<Store>,
}

impl Stores<'_> {
    fn new(frame: Frame, words: &[u64], root: u64, free: Vec<u64>) -> Stores<'_> {
        let free = free.into_iter();
        Stores { frame, words, root, free, short_of_pages: false, list: Vec::new() }
    }

    /// The stores of one touched GiB: its map, changed in the range, compared with its entries.
    fn gib(&mut self, gib: usize, asked: Asked) {
        let mut map = gib_map(self.frame, self.words, self.root, gib);
        let first_page = gib * GIB_PAGES;
        let page = |address: u64| (address / PAGE_BYTES) as usize;
        let from = page(asked.start).max(first_page) - first_page;
        let to = page(asked.start + asked.length).min(first_page + GIB_PAGES) - first_page;
        map[from..to].fill(asked.permission);
        let forms = finished_form(&map);
        for (nth, (form, block)) in forms.into_iter().zip(map.chunks(BLOCK_PAGES)).enumerate() {
            self.block(gib * GIB_BLOCKS + nth, form, block);
        }
    }

    fn block(&mut self, number: usize, form: Form, block: &[Permission]) {
        let root = self.frame.word_index(self.words, self.root).expect("the root is lent");
        let entry = root + number;
        let now = L2::from_word(self.words[entry]).expect("a sound entry keeps the rules");
        match (form, now) {
            (Form::Pages, L2::Pages(page)) => self.change_page(page, block),
            (Form::Pages, _) => self.new_page(entry, block),
            (Form::Whole(permission), _) => self.change(entry, L2::Whole(permission).to_word()),
            (Form::Pieces(each), _) => self.change(entry, L2::Pieces(each).to_word()),
        }
    }

    /// "all 512 entries of a new page in order, then the L2 entry."
    fn new_page(&mut self, entry: usize, block: &[Permission]) {
        let page = match self.free.next() {
            Some(page) => page,
            None => {
                self.short_of_pages = true;
                return;
            }
        };
        let at = self.frame.word_index(self.words, page).expect("a free page is lent");
        for (nth, word) in l1_entries(block).into_iter().enumerate() {
            self.list.push(Store { index: at + nth, word });
        }
        self.list.push(Store { index: entry, word: L2::Pages(page).to_word() });
    }

    /// "those L1 entries that change, in order, in the same page."
    fn change_page(&mut self, page: u64, block: &[Permission]) {
        let at = self.frame.word_index(self.words, page).expect("an L1 page is lent");
        debug_assert!(at + PAGE_WORDS <= self.words.len());
        for (nth, word) in l1_entries(block).into_iter().enumerate() {
            self.change(at + nth, word);
        }
    }

    fn change(&mut self, index: usize, word: u64) {
        if self.words[index] != word {
            self.list.push(Store { index, word });
        }
    }
}
