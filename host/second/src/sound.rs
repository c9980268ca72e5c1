//! The sound table, and which of its pages are free.

use crate::frame::{Frame, Register};
use crate::walk::{l1_permissions, L2};
use crate::Slots;

/// The registers of the open slots.
pub fn open_registers(slots: &Slots) -> Vec<Register> {
    slots.iter().filter(|&&word| word != 0).map(|&word| Register::from_word(word)).collect()
}

pub fn sound(frame: Frame, words: &[u64], slots: &Slots) -> bool {
    used_pages(frame, words, slots).is_some()
}

/// The pages in use, roots first and then L1 pages; nothing if the table is not sound. The frame
/// must be within its bounds.
pub fn used_pages(frame: Frame, words: &[u64], slots: &Slots) -> Option<Vec<u64>> {
    let registers = open_registers(slots);
    let plain = |register: &Register| register.mode == 1 && register.wpri == 0;
    let sdids: Vec<u64> = registers.iter().map(|register| register.sdid).collect();
    if !registers.iter().all(plain) || !distinct(&sdids) {
        return None;
    }
    let mut used: Vec<u64> = registers.iter().map(|register| register.ppn).collect();
    for root in used.clone() {
        for &entry in &frame.page(words, root)?[..frame.blocks()] {
            if let L2::Pages(page) = L2::from_word(entry)? {
                used.push(page);
            }
        }
    }
    let l1_pages = &used[registers.len()..];
    let clean = l1_pages.iter().all(|&page| frame.page(words, page).map_or(false, reserved_clear));
    (clean && distinct(&used)).then_some(used)
}

/// The lent pages that are neither a root nor an L1 page, lowest first.
pub fn free_pages(frame: Frame, words: &[u64], used: &[u64]) -> Vec<u64> {
    let mut taken = vec![false; words.len() / crate::frame::PAGE_WORDS];
    for page in used {
        taken[(page - frame.first) as usize] = true;
    }
    frame.lent_pages(words).zip(taken).filter(|(_, taken)| !taken).map(|(page, _)| page).collect()
}

fn reserved_clear(page: &[u64]) -> bool {
    page.iter().all(|&entry| entry == 0 || l1_permissions(entry).is_some())
}

fn distinct(numbers: &[u64]) -> bool {
    let mut sorted = numbers.to_vec();
    sorted.sort_unstable();
    sorted.windows(2).all(|pair| pair[0] != pair[1])
}
