//! Any values whatever: most near what the monitor takes, so that some get far, and some not.

use crate::random::Random;
use mpt_monitor::{Frame, PageNumber};

/// A number at or beside a bound of document 01, or any other.
pub fn any(random: &mut Random) -> u64 {
    match random.below(8) {
        0 => random.next(),
        1 => random.next() >> random.below(64),
        2 => u64::MAX - random.below(3),
        3 => (1u64 << random.below(64)).wrapping_sub(random.below(2)),
        _ => random.below(10),
    }
}

/// Where the lent memory says it lies.
pub fn frame(random: &mut Random) -> Frame {
    let paw = if random.percent(95) { 30 + random.below(5) } else { any(random) };
    let first = match random.below(20) {
        0 => any(random),
        1 => space(paw).wrapping_sub(random.below(8)),
        _ => 1 + random.below(space(paw)),
    };
    Frame { paw, first: PageNumber(first) }
}

/// The pages of the address space, or some number that is not 0.
fn space(paw: u64) -> u64 {
    1 << (paw.wrapping_sub(12) & 31)
}

/// How many words: whole pages or not, few enough to try many.
pub fn count(random: &mut Random, most: usize) -> usize {
    let pages = if random.percent(95) { 2 + random.below(most as u64 / 512 - 1) } else { random.below(2) };
    let count = if random.percent(95) { pages * 512 } else { (pages * 512 + random.below(3)).wrapping_sub(1) };
    (count as usize).min(most)
}

/// A page number in or beside the lent pages.
fn page(random: &mut Random, frame: Frame) -> u64 {
    frame.first.0.wrapping_add(random.below(9)).wrapping_sub(1) & ((1 << 44) - 1)
}

/// A register.
pub fn register(random: &mut Random, frame: Frame) -> u64 {
    match random.below(8) {
        0 => any(random),
        1 => random.below(16) << 60 | random.next() & ((1 << 60) - 1),
        _ => 1 << 60 | random.below(64) << 54 | page(random, frame),
    }
}

/// An entry of either level.
fn entry(random: &mut Random, frame: Frame) -> u64 {
    match random.below(10) {
        0 => any(random),
        1 => random.next() & 0x3333_3333_3333_3333,
        2 => random.below(8) << 44 | any(random) & ((1 << 44) - 1),
        3 => 6 << 44 | random.next() & 0xFFFF_FFFF,
        4 => 4 << 44 | page(random, frame),
        _ => random.below(4) << 44,
    }
}

/// The lent memory: zero, one entry all over, or anything; then some words of it apart.
pub fn fill(random: &mut Random, frame: Frame, words: &mut [u64]) {
    match random.below(6) {
        0 => words.iter_mut().for_each(|word| *word = random.next()),
        1 => words.iter_mut().for_each(|word| *word = entry(random, frame)),
        2 => words.fill(entry(random, frame)),
        _ => words.fill(0),
    }
    let apart = if words.is_empty() || random.percent(40) { 0 } else { random.below(12) };
    for _ in 0..apart {
        let at = random.below(words.len() as u64) as usize;
        words[at] = entry(random, frame);
    }
}

/// An address: page by page near a bound, near the lent pages, or any.
pub fn address(random: &mut Random, frame: Frame) -> u64 {
    match random.below(6) {
        0 => any(random),
        1 => space(frame.paw).wrapping_sub(random.below(4)) << 12,
        2 => frame.first.0.wrapping_add(random.below(8)).wrapping_sub(1) << 12,
        3 => (random.below(4) << 30) + (random.below(3) << 12),
        4 => random.below(32) << 25,
        _ => random.below(space(frame.paw)) << 12,
    }
}

/// A length in bytes, most of whole pages.
pub fn length(random: &mut Random) -> u64 {
    match random.below(6) {
        0 => any(random),
        1 => (1 + random.below(2)) << 30,
        2 => (1 + random.below(20)) << 21,
        3 => random.below(1 << 18) << 12,
        _ => random.below(40) << 12,
    }
}
