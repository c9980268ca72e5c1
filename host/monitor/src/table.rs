//! A table: the frame, the words of the lent memory, and the eight slots.

use crate::call::{View, ViewMut};
use crate::types::{PageNumber, Register, Slot};
use core::ptr;
use core::sync::atomic::{fence, Ordering};

/// Words in a page, one entry each.
pub const PAGE_WORDS: usize = 512;
/// Slots beside a frame.
pub const SLOTS: usize = 8;
/// As many stores as the longest edit makes.
pub const MOST_STORES: u64 = 1536;
/// A new page and its link. An edit that is made again until it was all needs this limit or more: a page that was not
/// linked yet is begun again, so that with less it may be cut there for ever.
pub const LEAST_LIMIT: u64 = 513;

/// The physical address width and the first lent page. Any values: the monitor refuses bad ones.
#[derive(Clone, Copy, Debug, PartialEq, Eq)]
pub struct Frame {
    pub paw: u64,
    pub first: PageNumber,
}

/// Memory that a [`Monitor`](crate::Monitor) works on.
pub trait Memory {
    fn view(&self) -> View<'_>;

    fn view_mut(&mut self) -> ViewMut<'_>;

    /// Writes one slot, after an open or a close. A slot above 7 is none.
    fn set_slot(&mut self, slot: Slot, register: Register);

    /// The register in a slot; nothing for an empty slot, which holds none, and for a slot above 7.
    fn register(&self, slot: Slot) -> Option<Register> {
        let index = usize::try_from(slot.0).ok()?;
        self.view().slots.get(index).copied().map(Register).filter(|register| !register.is_empty())
    }
}

/// A table in memory that its caller lends, as firmware has it: words and slots that outlive a reset.
///
/// ```
/// # use mpt_monitor::*;
/// let (mut words, mut slots) = ([0; 2 * PAGE_WORDS], [0; SLOTS]);
/// let mut table = Lent::new(Frame { paw: 32, first: PageNumber(0x80000) }, &mut words, &mut slots);
/// table.set_slot(Slot(1), Register(0x1140_0000_0008_0000));
/// assert_eq!(table.register(Slot(1)), Some(Register(0x1140_0000_0008_0000)));
/// assert_eq!((table.register(Slot(2)), table.register(Slot(8))), (None, None));
/// ```
#[derive(Debug)]
pub struct Lent<'a> {
    frame: Frame,
    words: &'a mut [u64],
    slots: &'a mut [u64; SLOTS],
}

impl<'a> Lent<'a> {
    /// Memory and slots as they stand, sound or not.
    pub fn new(frame: Frame, words: &'a mut [u64], slots: &'a mut [u64; SLOTS]) -> Lent<'a> {
        Lent { frame, words, slots }
    }
}

impl Memory for Lent<'_> {
    #[inline]
    fn view(&self) -> View<'_> {
        View { frame: self.frame, words: self.words, slots: self.slots }
    }

    #[inline]
    fn view_mut(&mut self) -> ViewMut<'_> {
        ViewMut { frame: self.frame, words: self.words, slots: self.slots }
    }

    /// One store of 8 bytes, in order with all before and after it. A reset leaves the old register or
    /// the new one: the new one of an open only where its root page is zeroed, and a close's fence, which
    /// comes after this, finds the slot empty on every hart.
    #[inline]
    fn set_slot(&mut self, slot: Slot, register: Register) {
        if let Some(place) = place_of(self.slots, slot) {
            fence(Ordering::SeqCst);
            // SAFETY: a reference is good for a write.
            unsafe { ptr::write_volatile(place, register.0) };
            fence(Ordering::SeqCst);
        }
    }
}

fn place_of(slots: &mut [u64; SLOTS], slot: Slot) -> Option<&mut u64> {
    slots.get_mut(usize::try_from(slot.0).ok()?)
}

/// A table that owns its memory. It is gone after a reset.
#[cfg(feature = "std")]
#[derive(Clone, Debug, PartialEq, Eq)]
pub struct Table {
    frame: Frame,
    words: Vec<u64>,
    slots: [u64; SLOTS],
}

#[cfg(feature = "std")]
impl Table {
    /// Zeroed memory of whole pages, and eight empty slots.
    pub fn new(frame: Frame, pages: usize) -> Table {
        Table::from_parts(frame, vec![0; pages * PAGE_WORDS], [0; SLOTS])
    }

    /// Memory and slots as they stand, sound or not.
    pub fn from_parts(frame: Frame, words: Vec<u64>, slots: [u64; SLOTS]) -> Table {
        Table { frame, words, slots }
    }

    pub fn frame(&self) -> Frame {
        self.frame
    }

    pub fn words(&self) -> &[u64] {
        &self.words
    }

    pub fn slots(&self) -> &[u64; SLOTS] {
        &self.slots
    }

    /// For writing past the monitor: damage for a test, or an image from elsewhere.
    pub fn words_mut(&mut self) -> &mut [u64] {
        &mut self.words
    }

    /// As `words_mut`.
    pub fn slots_mut(&mut self) -> &mut [u64; SLOTS] {
        &mut self.slots
    }
}

#[cfg(feature = "std")]
impl Memory for Table {
    #[inline]
    fn view(&self) -> View<'_> {
        View { frame: self.frame, words: &self.words, slots: &self.slots }
    }

    #[inline]
    fn view_mut(&mut self) -> ViewMut<'_> {
        ViewMut { frame: self.frame, words: &mut self.words, slots: &self.slots }
    }

    #[inline]
    fn set_slot(&mut self, slot: Slot, register: Register) {
        if let Some(place) = place_of(&mut self.slots, slot) {
            *place = register.0;
        }
    }
}
