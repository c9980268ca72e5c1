//! Open and close. The slots are the caller's, who writes them.

use crate::check::used_pages;
use crate::lent::{sdid, Lent};
use crate::*;

/// Answers the register for the slot.
pub fn open(frame: Frame, words: &mut [u64], slots: &[u64; 8], slot: u64, new_sdid: u64) -> Result<u64, Refusal> {
    let lent = Lent::new(frame, words.len()).ok_or(BAD_FRAME)?;
    let mut used = used_pages(lent, words, slots).ok_or(NOT_SOUND)?;
    if slot > 7 || slots[slot as usize] != 0 {
        return Err(BAD_SLOT);
    }
    if new_sdid > 63 || slots.iter().any(|&register| register != 0 && sdid(register) == new_sdid) {
        return Err(BAD_SDID);
    }
    let root = used.take_lowest(lent.pages).ok_or(NO_PAGE)?;
    words[root * 512..][..512].fill(0);
    Ok(1 << 60 | new_sdid << 54 | (frame.first + root as u64))
}

/// The slot is then to be emptied.
pub fn close(frame: Frame, words: &[u64], slots: &[u64; 8], slot: u64) -> Result<Fence, Refusal> {
    let lent = Lent::new(frame, words.len()).ok_or(BAD_FRAME)?;
    used_pages(lent, words, slots).ok_or(NOT_SOUND)?;
    if slot > 7 || slots[slot as usize] == 0 {
        return Err(BAD_SLOT);
    }
    Ok(Fence::Domain { sdid: sdid(slots[slot as usize]) })
}
