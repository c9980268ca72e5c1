//! The one word that each call of `mpt.h` answers, taken apart.
//!
//! ```
//! # use mpt_monitor::*;
//! assert_eq!(word::looked(261), Answer::Looked(Verdict::Fault(Cause::Load)));
//! assert_eq!(word::closed(0x5500), Answer::Closed(Fence::Domain(Sdid(5))));
//! assert_eq!(word::sound(3), Answer::Refused(Refusal::NotSound));
//! ```

use crate::answer::{Answer, Edited, Fence, Separation, Verdict};
use crate::types::{Address, PageNumber, Register, Sdid, Slot};

/// Words from here on tell what was done, or a fault.
const DONE: u64 = 256;
/// A code names no privilege, kind, permission or strength.
const OUTSIDE_KIND: u64 = 255;

/// A word that says that nothing was done, 1 to 255: a refusal, or a code that names nothing. One test
/// tells it from all others, so that a caller who asks no more has no branch between 0 and a fault.
#[inline]
fn undone(word: u64) -> Option<Answer> {
    if word.wrapping_sub(1) >= OUTSIDE_KIND {
        None
    } else if word == OUTSIDE_KIND {
        Some(Answer::OutsideKind)
    } else {
        Some(Answer::refused(word))
    }
}

/// Of a lookup: 0 allowed, 256 and the cause of a fault.
#[inline]
pub fn looked(word: u64) -> Answer {
    undone(word).unwrap_or(match word {
        0 => Answer::Looked(Verdict::Allowed),
        _ => Answer::fault(word.wrapping_sub(DONE)),
    })
}

/// Of an open: the register.
#[inline]
pub fn opened(word: u64) -> Answer {
    undone(word).unwrap_or(match word {
        0 => Answer::Unknown(word),
        _ => Answer::Opened(Register(word)),
    })
}

/// Of a close: the fence.
#[inline]
pub fn closed(word: u64) -> Answer {
    undone(word).unwrap_or(match (word, fence(word, Address(0))) {
        (DONE.., Some(fence)) => Answer::Closed(fence),
        _ => Answer::Unknown(word),
    })
}

/// Of an edit from `start`: bits 57:18 how many stores were made, bit 9 whether those were all, and the
/// fence.
#[inline]
pub fn edited(word: u64, start: Address) -> Answer {
    let (stores, all) = (word >> 18 & 0xFF_FFFF_FFFF, word >> 9 & 1 == 1);
    undone(word).unwrap_or(match (word, fence(word, start)) {
        (DONE.., Some(fence)) => Answer::Edited(Edited { stores, all, fence }),
        _ => Answer::Unknown(word),
    })
}

/// Of the whole-table check: 0 sound.
#[inline]
pub fn sound(word: u64) -> Answer {
    undone(word).unwrap_or(match word {
        0 => Answer::Sound,
        _ => Answer::Unknown(word),
    })
}

/// Of the test whether the domains are kept apart: 0 if they are. Else bit 9 whether the page is a table's, bit 10 whether it
/// may be written, bits 14:12 the slot, bits 18:16 the other slot, from bit 20 up the page number; bits 7:0, 11, 15 and 19 are
/// zero.
#[inline]
pub fn tested(word: u64) -> Answer {
    const UNUSED: u64 = 0x8_88FF;
    let (slot, other, page) = (Slot(word >> 12 & 7), Slot(word >> 16 & 7), PageNumber(word >> 20));
    let (of_table, written) = (word >> 9 & 1 == 1, word >> 10 & 1 == 1);
    undone(word).unwrap_or(match word {
        0 => Answer::Tested(Separation::Apart),
        _ if word & DONE == 0 || word & UNUSED != 0 => Answer::Unknown(word),
        _ if of_table && other == Slot(0) => Answer::Tested(Separation::TableOpen { page, slot, written }),
        _ if !of_table && slot < other => Answer::Tested(Separation::PageShared { page, slot, other, written }),
        _ => Answer::Unknown(word),
    })
}

/// Bits 11:10 the kind of a fence, bits 17:12 its SDID. An address fence is for the edit's start.
#[inline]
fn fence(word: u64, start: Address) -> Option<Fence> {
    let sdid = Sdid(word >> 12 & 63);
    match word >> 10 & 3 {
        0 => Some(Fence::None),
        1 => Some(Fence::Domain(sdid)),
        2 => Some(Fence::Address(start, sdid)),
        _ => None,
    }
}
