//! The whole-table check, in two versions that differ in how an L1 page is tested.

use crate::lent::{sdid, Lent, Used, PPN, RESERVED, WPRI};
use crate::{Frame, Refusal, BAD_FRAME, NOT_SOUND};

/// Hand-tuned: the entries of an L1 page are gathered by OR and tested once.
pub fn sound(frame: Frame, words: &[u64], slots: &[u64; 8]) -> Result<(), Refusal> {
    answer(frame, words, |lent| used_pages(lent, words, slots).is_some())
}

/// Obvious: each entry of an L1 page is tested by the mask.
#[inline(never)]
pub fn sound_obvious(frame: Frame, words: &[u64], slots: &[u64; 8]) -> Result<(), Refusal> {
    let clean = |page: &[u64]| page.iter().all(|entry| entry & RESERVED == 0);
    answer(frame, words, |lent| check(lent, words, slots, clean).is_some())
}

#[inline(always)]
fn answer(frame: Frame, words: &[u64], is_sound: impl Fn(Lent) -> bool) -> Result<(), Refusal> {
    match Lent::new(frame, words.len()) {
        None => Err(BAD_FRAME),
        Some(lent) if is_sound(lent) => Ok(()),
        Some(_) => Err(NOT_SOUND),
    }
}

/// The pages in use, if the table is sound.
#[inline(never)]
pub fn used_pages(lent: Lent, words: &[u64], slots: &[u64; 8]) -> Option<Used> {
    check(lent, words, slots, |page| page.iter().fold(0, |all, entry| all | entry) & RESERVED == 0)
}

#[inline(always)]
fn check(lent: Lent, words: &[u64], slots: &[u64; 8], clean: impl Fn(&[u64]) -> bool) -> Option<Used> {
    let page_at = |nth: usize| &words[nth * 512..][..512];
    let mut used = Used::default();
    let mut sdids = 0u64;
    for &register in slots.iter().filter(|&&register| register != 0) {
        let held = 1 << sdid(register);
        if register >> 60 != 1 || register & WPRI != 0 || sdids & held != 0 {
            return None;
        }
        sdids |= held;
        let root = lent.index(register & PPN)?;
        if !used.mark(root) {
            return None;
        }
        for &entry in &page_at(root)[..lent.blocks()] {
            match entry >> 44 {
                0..=3 if entry & PPN == 0 => {}
                6 if entry & PPN < 1 << 32 => {}
                4 => {
                    let page = lent.index(entry & PPN)?;
                    if !used.mark(page) || !clean(page_at(page)) {
                        return None;
                    }
                }
                _ => return None,
            }
        }
    }
    Some(used)
}
