//! Tables to start from, made at once: of any number of pages and domains, nearly full or not, with
//! pages in any place, and in every form that a cut edit or another monitor may have left.

use super::frames::{self, Good, Size};
use super::generate::permission;
use super::layout::{flat, link, pieces, spread, FIELDS};
use super::places::{Odd, UNITS};
use crate::random::Random;
use mpt_monitor::{Frame, PageNumber, Permission, Table, PAGE_WORDS};

const GIB_BLOCKS: usize = 32;
const BLOCK: u64 = UNITS[3];

/// A table as it is built.
struct Build {
    frame: Good,
    words: Vec<u64>,
    slots: [u64; 8],
    /// The pages left for roots and L1 pages.
    spare: Vec<usize>,
    odd: Vec<Odd>,
}

/// A sound table, and the ranges in which its GiBs differ from one permission.
pub fn start(random: &mut Random, size: Size) -> (Table, Vec<Odd>) {
    let frame = frames::good(random, size);
    let domains = if random.percent(40) { 8 } else { 1 + random.below(8) }.min(frame.pages);
    let mut build = Build {
        frame,
        words: vec![0; frame.pages as usize * PAGE_WORDS],
        slots: [0; 8],
        spare: spare(random, frame, domains),
        odd: Vec::new(),
    };
    let used: Vec<usize> = build.spare.clone();
    litter(random, &mut build.words, &used);
    let sdids = random.below(64);
    let slots = distinct(random, 8, domains as usize);
    let roots: Vec<(usize, usize)> = slots.iter().map(|&slot| (slot, build.spare.pop().expect("a root"))).collect();
    for (nth, &(slot, root)) in roots.iter().enumerate() {
        let sdid = (sdids + 7 * nth as u64) % 64;
        build.slots[slot] = 1 << 60 | sdid << 54 | (frame.first + root as u64);
        build.words[root * PAGE_WORDS..][..PAGE_WORDS].fill(0);
    }
    build.domains(random, &roots);
    let frame = Frame { paw: frame.paw, first: PageNumber(frame.first) };
    (Table::from_parts(frame, build.words, build.slots), build.odd)
}

/// The pages that will be in use, next last: nearly all or some, the lowest or any.
fn spare(random: &mut Random, frame: Good, domains: u64) -> Vec<usize> {
    let pages = frame.pages;
    let free = if random.percent(70) { random.pick(&[0, 1, 2, 2, 3]) } else { random.below(pages) };
    let used = pages.saturating_sub(free).max(domains) as usize;
    match random.below(3) {
        0 => (0..used).rev().collect(),
        _ => distinct(random, pages as usize, used),
    }
}

/// So many different numbers below a bound, in any order.
fn distinct(random: &mut Random, bound: usize, count: usize) -> Vec<usize> {
    let mut all: Vec<usize> = (0..bound).collect();
    for nth in 0..count {
        all.swap(nth, nth + random.below((bound - nth) as u64) as usize);
    }
    all.truncate(count);
    all
}

/// Pages that are not in use may hold anything.
fn litter(random: &mut Random, words: &mut [u64], used: &[usize]) {
    for page in 0..words.len() / PAGE_WORDS {
        if used.contains(&page) {
            continue;
        }
        let page = &mut words[page * PAGE_WORDS..][..PAGE_WORDS];
        match random.below(8) {
            0 => page.fill(random.pick(&[u64::MAX, flat(3), spread(1)])),
            _ => (0..4).for_each(|_| page[random.edge(PAGE_WORDS as u64) as usize] = random.next()),
        }
    }
}

impl Build {
    fn domains(&mut self, random: &mut Random, roots: &[(usize, usize)]) {
        let blocks = 1usize << (self.frame.paw - 25);
        let count = self.spare.len().min(roots.len() * blocks);
        // which blocks of which domains have an L1 page: any, or neighbours
        let all = roots.len() * blocks;
        let from = random.edge(all as u64) as usize;
        let tables = match random.percent(50) {
            true => distinct(random, all, count),
            false => (from..from + count).map(|block| block % all).collect(),
        };
        for (nth, &(slot, root)) in roots.iter().enumerate() {
            let mut has_table = vec![false; blocks];
            tables.iter().filter(|&&at| at / blocks == nth).for_each(|at| has_table[at % blocks] = true);
            for gib in 0..blocks / GIB_BLOCKS {
                self.gib(random, (slot, root), gib, &has_table[gib * GIB_BLOCKS..][..GIB_BLOCKS]);
            }
            self.tail(random, root, blocks);
        }
    }

    /// A GiB of one permission, of one but for a range in one block, or of anything.
    fn gib(&mut self, random: &mut Random, (slot, root): (usize, usize), gib: usize, has_table: &[bool]) {
        let rest = if random.percent(50) { Permission::None } else { permission(random) };
        let paged: Vec<usize> = (0..GIB_BLOCKS).filter(|&nth| has_table[nth]).collect();
        let (mixed, odd) = match random.below(8) {
            0..=2 => (false, GIB_BLOCKS),
            3..=5 if !paged.is_empty() => (false, random.pick(&paged)),
            3..=6 => (false, random.edge(GIB_BLOCKS as u64) as usize),
            _ => (true, GIB_BLOCKS),
        };
        let plainly = random.percent(40);
        for (nth, &has_table) in has_table.iter().enumerate() {
            let block = gib * GIB_BLOCKS + nth;
            if nth != odd && !mixed && !has_table {
                let one = plainly || random.percent(50);
                let entry = if one { flat(rest.code()) } else { pieces(rest.code() * 0x5555_5555) };
                self.words[root * PAGE_WORDS + block] = entry;
                continue;
            }
            let mut content = vec![rest.code() as u8; 8192];
            if nth == odd {
                let range = odd_range(random, has_table);
                content[range.clone()].fill(permission(random).code() as u8);
                let [start, end] = [range.start, range.end].map(|page| block as u64 * BLOCK + page as u64 * 4096);
                self.odd.push(Odd { slot: slot as u64, range: start..end, rest, in_l1: has_table });
            } else if mixed {
                mix(random, &mut content, has_table);
            }
            self.words[root * PAGE_WORDS + block] = self.entry(random, &content, has_table, plainly);
        }
    }

    /// An entry that says what a block's pages have: in a page if it is to have one and one is left;
    /// else any form that can say it, or the shortest.
    fn entry(&mut self, random: &mut Random, content: &[u8], has_table: bool, plainly: bool) -> u64 {
        if has_table {
            if let Some(page) = self.spare.pop() {
                let word = |fields: &[u8]| fields.iter().rev().fold(0, |word, &field| word << 4 | u64::from(field));
                let place = &mut self.words[page * PAGE_WORDS..][..PAGE_WORDS];
                place.iter_mut().zip(content.chunks(16)).for_each(|(place, fields)| *place = word(fields));
                return link(self.frame.first + page as u64);
            }
        }
        let info = content.chunks(512).enumerate().map(|(nth, piece)| u64::from(piece[0]) << (2 * nth)).sum();
        let one = info == u64::from(content[0]) * 0x5555_5555;
        match one && (plainly || random.percent(50)) {
            true => flat(content[0].into()),
            false => pieces(info),
        }
    }

    /// "the rest of the page is never read": it may hold entries that would allow.
    fn tail(&mut self, random: &mut Random, root: usize, blocks: usize) {
        let rest = &mut self.words[root * PAGE_WORDS..][blocks..PAGE_WORDS];
        if let Some(first) = rest.first_mut() {
            let any = random.next();
            *first = random.pick(&[flat(3), flat(3), pieces(0xFFFF_FFFF), link(self.frame.first), any]);
            rest[random.below(rest.len() as u64) as usize] = any;
        }
    }
}

/// Pages of a block that differ: any if it has an L1 page, else whole pieces.
fn odd_range(random: &mut Random, has_table: bool) -> std::ops::Range<usize> {
    let unit = match has_table {
        true => random.pick(&[1, 1, 16, 16, 512, 8192]),
        false => random.pick(&[512, 512, 8192]),
    };
    let from = random.edge(8192 / unit);
    let count = 1 + random.below(3.min(8192 / unit - from));
    (from * unit) as usize..((from + count) * unit) as usize
}

/// Any permissions: by pieces, or by pages if there is an L1 page for them.
fn mix(random: &mut Random, content: &mut [u8], has_table: bool) {
    if random.percent(50) {
        content.chunks_mut(512).for_each(|piece| piece.fill(random.below(4) as u8));
    }
    if has_table && random.percent(60) {
        let entry = random.edge(512) as usize;
        let fields = random.next() & FIELDS;
        (0..16).for_each(|nth| content[entry * 16 + nth] = (fields >> (4 * nth) & 3) as u8);
    }
}

#[cfg(test)]
mod tests {
    use super::*;
    use crate::test::reading::used_pages;

    #[test]
    fn every_start_is_sound() {
        for stream in 0..30 {
            let size = [Size::Small, Size::Middle, Size::Large][stream as usize % 3];
            let (table, odd) = start(&mut Random::new(1, stream), size);
            assert!(used_pages(&table).is_some(), "{stream}: {:?}", table.frame());
            assert!(odd.iter().all(|odd| odd.range.end <= 1 << table.frame().paw && odd.range.start < odd.range.end));
        }
    }

    #[test]
    fn some_starts_use_every_page() {
        let full = |stream| {
            let (table, _) = start(&mut Random::new(2, stream), Size::Large);
            used_pages(&table).map(|used| used.len()) == Some(256)
        };
        assert!((0..60).any(full));
    }
}
