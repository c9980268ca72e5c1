//! What a picture of a table shows, before it is drawn.

use super::access::{Lookups, BLOCK_BYTES, PAGE_BYTES};
use super::block::{block, Block, Form};
use super::range::{push, Range};
use super::section::number_of;
use super::shared::{holders, Holders};
use crate::programs::Program;
use crate::undone::Undone;
use mpt_monitor::{Permission, Refusal, Register, Separation, Strength, Table, PAGE_WORDS};

/// Blocks in a GiB: the cells of a row.
pub const GIB_BLOCKS: usize = 32;

/// A table as it reads, sound or not.
#[derive(Debug, PartialEq)]
pub struct Picture {
    pub paw: u64,
    pub first: u64,
    pub sound: bool,
    pub domains: Vec<Domain>,
    pub pages: Vec<Use>,
    /// Whether the domains are kept apart, as the program's tests say: where they may share what none may write, and where not.
    pub apart: [Result<Separation, Refusal>; 2],
    /// What is open to more than one domain.
    pub shared: Vec<Range<Holders>>,
    /// What is open of the lent pages.
    pub exposed: Vec<Range<Holders>>,
    /// What was asked in vain before the table was like this.
    pub undone: Vec<Undone>,
}

/// The domain of an open slot.
#[derive(Debug, PartialEq)]
pub struct Domain {
    pub slot: usize,
    pub register: Register,
    pub blocks: Vec<Block>,
    /// What is open to it.
    pub ranges: Vec<Range<Permission>>,
}

/// What a lent page is used for.
#[derive(Clone, Copy, Debug, PartialEq, Eq)]
pub enum Use {
    Free,
    Root(usize),
    L1(usize),
    /// Used more than once, so the table is not sound.
    Twice,
}

impl Use {
    pub fn text(self) -> String {
        match self {
            Use::Free => "free".to_string(),
            Use::Root(slot) => format!("root of slot {slot}"),
            Use::L1(slot) => format!("L1 page of slot {slot}"),
            Use::Twice => "used twice".to_string(),
        }
    }
}

impl Picture {
    /// By a program's lookups. Nothing but the reason if the frame breaks its bounds.
    pub fn of(table: &Table, program: Program) -> Result<Picture, String> {
        let frame = second::Frame { paw: table.frame().paw, first: table.frame().first.0 };
        let sound = program.monitor().sound(table);
        if sound == Err(Refusal::BadFrame) || !frame.within_bounds(table.words()) {
            let (paw, first, words) = (frame.paw, frame.first, number_of(table.words().len(), "word"));
            let why = Refusal::BadFrame;
            return Err(format!(
                "{why}; with PAW {paw}, first page {first:#x} and {words} ({PAGE_WORDS} to a page) nothing can be read"
            ));
        }
        let open = table.slots().iter().enumerate().filter(|(_, &word)| word != 0);
        let lookups = |word| Lookups { program, table, register: Register(word) };
        let domains: Vec<Domain> = open.map(|(slot, &word)| domain(frame, slot, lookups(word))).collect();
        let pages = uses(frame, table, &domains);
        let all = holders(domains.iter().map(|domain| (domain.slot, &domain.ranges[..])));
        let (start, end) = lent(frame.first, pages.len());
        Ok(Picture {
            paw: frame.paw,
            first: frame.first,
            sound: sound.is_ok(),
            apart: Strength::ALL.map(|strength| program.monitor().apart(table, strength)),
            pages,
            exposed: all.iter().filter_map(|range| range.within(start, end)).collect(),
            shared: all.into_iter().filter(|range| range.what.count() > 1).collect(),
            domains,
            undone: Vec::new(),
        })
    }

    pub fn count(&self, counted: impl Fn(&Use) -> bool) -> usize {
        self.pages.iter().filter(|each| counted(each)).count()
    }

    /// The lent pages as addresses.
    pub fn lent(&self) -> Range<()> {
        let (start, end) = lent(self.first, self.pages.len());
        Range { start, end, what: () }
    }

    /// Whether a lent page that the table does not use is open to a domain.
    pub fn free_is_open(&self) -> bool {
        let is_open = |start: u64| self.exposed.iter().any(|range| range.within(start, start + PAGE_BYTES).is_some());
        let starts = (self.first..).map(|page| page * PAGE_BYTES);
        self.pages.iter().zip(starts).any(|(each, start)| *each == Use::Free && is_open(start))
    }

    /// Whether a block holds a lent page.
    pub fn holds_lent(&self, number: usize) -> bool {
        let start = number as u64 * BLOCK_BYTES;
        self.lent().within(start, start + BLOCK_BYTES).is_some()
    }

    /// Whether all is as it should be: the table sound and closed, and every command done.
    pub fn is_fine(&self) -> bool {
        self.sound && self.exposed.is_empty() && self.undone.is_empty()
    }
}

fn lent(first: u64, pages: usize) -> (u64, u64) {
    (first * PAGE_BYTES, (first + pages as u64) * PAGE_BYTES)
}

fn domain(frame: second::Frame, slot: usize, lookups: Lookups) -> Domain {
    let (register, words) = (lookups.register, lookups.table.words());
    let root = if register.mode() == 1 { frame.page(words, register.root().0) } else { None };
    let bare = register.mode() == 0 && register.root().0 == 0 && register.sdid().0 == 0;
    let (mut blocks, mut ranges) = (Vec::new(), Vec::new());
    for number in 0..frame.blocks() {
        let entry = root.map(|root| root[number]);
        let form = match entry {
            Some(entry) => Form::of(frame, words, entry),
            None if bare => Form::Bare,
            None => Form::Bad,
        };
        let (block, parts) = block(lookups, number, form, entry);
        blocks.push(block);
        let open = parts.into_iter().filter(|range| range.what != Permission::None);
        open.for_each(|range| push(&mut ranges, range));
    }
    Domain { slot, register, blocks, ranges }
}

fn uses(frame: second::Frame, table: &Table, domains: &[Domain]) -> Vec<Use> {
    let mut uses = vec![Use::Free; table.words().len() / PAGE_WORDS];
    let mut mark = |page: u64, new: Use| {
        let nth = page.checked_sub(frame.first).unwrap_or(u64::MAX) as usize;
        if let Some(place) = uses.get_mut(nth) {
            *place = if *place == Use::Free { new } else { Use::Twice };
        }
    };
    for domain in domains {
        mark(domain.register.root().0, Use::Root(domain.slot));
        for block in &domain.blocks {
            if let Form::Pages { page, .. } = block.form {
                mark(page, Use::L1(domain.slot));
            }
        }
    }
    uses
}

#[cfg(test)]
pub mod tests;
