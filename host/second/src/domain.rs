//! Opening and closing a domain.

use crate::edit::Fence;
use crate::frame::{Frame, Register, PAGE_WORDS};
use crate::sound::{free_pages, open_registers, used_pages};
use crate::{Refusal, Slots};

/// Opens an empty slot: the lowest free page, zeroed, becomes its root. Answers the register.
pub fn open(frame: Frame, words: &mut [u64], slots: &mut Slots, slot: u64, sdid: u64) -> Result<u64, Refusal> {
    if !frame.within_bounds(words) {
        return Err(1);
    }
    let used = used_pages(frame, words, slots).ok_or(3u64)?;
    if slot > 7 || slots[slot as usize] != 0 {
        return Err(4);
    }
    if sdid > 63 || open_registers(slots).iter().any(|register| register.sdid == sdid) {
        return Err(8);
    }
    let root = *free_pages(frame, words, &used).first().ok_or(7u64)?;
    let at = frame.word_index(words, root).expect("a free page is lent");
    words[at..at + PAGE_WORDS].fill(0);
    let register = Register { ppn: root, wpri: 0, sdid, mode: 1 }.to_word();
    slots[slot as usize] = register;
    Ok(register)
}

/// Empties a slot, writes no byte and asks for a domain fence.
pub fn close(frame: Frame, words: &[u64], slots: &mut Slots, slot: u64) -> Result<Fence, Refusal> {
    if !frame.within_bounds(words) {
        return Err(1);
    }
    if used_pages(frame, words, slots).is_none() {
        return Err(3);
    }
    if slot > 7 || slots[slot as usize] == 0 {
        return Err(4);
    }
    let sdid = Register::from_word(slots[slot as usize]).sdid;
    slots[slot as usize] = 0;
    Ok(Fence::Domain(sdid))
}
