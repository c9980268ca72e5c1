//! Writes past the monitor: tables that are sound but of no finished form, and tables that are
//! damaged in any way.

use super::aim;
use super::generate::permission;
use super::layout::{flat, link, open, pages, pieces, spread, within_bounds, words_of, FIELDS, INFO};
use super::places::Places;
use super::reading::used_pages;
use crate::command::Command;
use crate::random::Random;
use mpt_monitor::{Register, Table, PAGE_WORDS};

/// Where the root page of some open slot begins, if it is lent.
fn root_index(random: &mut Random, table: &Table) -> Option<usize> {
    let open: Vec<Register> = open(table).collect();
    let register = open.get(random.below(open.len().max(1) as u64) as usize)?;
    words_of(table, register.root().0).map(|at| at.start)
}

/// Keeps a sound table sound, but leaves a form that no edit does: blocks of a GiB in different
/// forms, pieces that could be one 1G type, L1 pages that say one permission.
pub fn reshape(random: &mut Random, table: &Table, places: &Places) -> Vec<Command> {
    let (used, root) = match (used_pages(table), root_index(random, table)) {
        (Some(used), Some(root)) => (used, root),
        _ => return Vec::new(),
    };
    let block = places.block(random) as usize;
    let place = root + block;
    let word = match random.below(4) {
        0 => flat(permission(random).code()),
        1 => pieces(permission(random).code() * 0x5555_5555),
        2 => pieces(random.next() & 0xFFFF_FFFF),
        _ => return link_page(random, table, &used, place),
    };
    vec![Command::Poke { index: place, word }]
}

/// A free page, written field by field in some pattern and then named by an entry.
fn link_page(random: &mut Random, table: &Table, used: &[u64], place: usize) -> Vec<Command> {
    let first = table.frame().first.0;
    let free: Vec<u64> = (first..first + pages(table) as u64).filter(|page| !used.contains(page)).collect();
    if free.is_empty() {
        return Vec::new();
    }
    let page = random.pick(&free);
    let at = (page - first) as usize * PAGE_WORDS;
    let base = spread(permission(random).code());
    let mut words: Vec<u64> = match random.below(3) {
        0 => vec![base; PAGE_WORDS],
        1 => (0..PAGE_WORDS).map(|entry| spread((entry as u64 / 32 * 7) & 3)).collect(),
        _ => table.words()[at..at + PAGE_WORDS].iter().map(|word| word & FIELDS).collect(),
    };
    for _ in 0..random.below(4) {
        words[random.below(512) as usize] = random.next() & FIELDS;
    }
    let changed = words.into_iter().enumerate().filter(|(nth, word)| table.words()[at + nth] != *word);
    let pokes = changed.map(|(nth, word)| Command::Poke { index: at + nth, word });
    pokes.chain([Command::Poke { index: place, word: link(page) }]).collect()
}

/// One word of the memory or one slot, changed in a way that may make the table unsound.
pub fn damage(random: &mut Random, table: &Table, places: &Places) -> Command {
    if random.percent(30) || table.words().is_empty() {
        return damage_slot(random, table);
    }
    let anywhere = random.below(table.words().len() as u64) as usize;
    let index = match root_index(random, table) {
        Some(root) if random.percent(50) => root + places.block(random) as usize,
        Some(root) if random.percent(20) => root + random.below(512) as usize,
        Some(_) => read_word(random, table).unwrap_or(anywhere),
        None => anywhere,
    };
    let index = index.min(table.words().len() - 1);
    Command::Poke { index, word: entry(random, table, table.words()[index]) }
}

/// A word that a walk reads: the first or last of a root or an L1 page, or any; nothing if there is none.
fn read_word(random: &mut Random, table: &Table) -> Option<usize> {
    if !within_bounds(table) {
        return None;
    }
    let (roots, pages) = (aim::root_words(table), aim::l1_pages(table));
    match random.percent(50) && !pages.is_empty() {
        true => Some(pages[random.edge(pages.len() as u64) as usize] + random.edge(512) as usize),
        false => roots.get(random.edge(roots.len().max(1) as u64) as usize).copied(),
    }
}

/// A page number: of a page in use, or in or just beside the lent memory.
fn page(random: &mut Random, table: &Table) -> u64 {
    let in_use = match random.percent(50) {
        true => used_pages(table).unwrap_or_default(),
        false => Vec::new(),
    };
    match in_use.is_empty() {
        false => random.pick(&in_use),
        true => {
            let nth = random.edge(pages(table) as u64 + 2);
            table.frame().first.0.wrapping_add(nth).wrapping_sub(1) & INFO
        }
    }
}

/// A word: entries of all types, good and bad, and anything else.
fn entry(random: &mut Random, table: &Table, now: u64) -> u64 {
    match random.below(12) {
        0 => random.next(),
        1 => flat(random.below(8)),
        2 => flat(random.below(8)) | random.next() >> random.below(64) & INFO,
        3..=5 => link(page(random, table)),
        6 => pieces(random.next() & 0x1_FFFF_FFFF),
        7 => pieces(1 << (32 + random.below(12))),
        8 => now ^ 1 << 47 << random.below(17),
        9 => now | 4 << (4 * random.below(16)),
        10 => link(page(random, table) & 0xFFFF_FFFF | 1 << (32 + random.below(12))),
        _ => now ^ 1 << random.below(64),
    }
}

fn damage_slot(random: &mut Random, table: &Table) -> Command {
    let index = random.below(8) as usize;
    let now = table.slots()[index];
    let other = random.pick(table.slots());
    let page = page(random, table);
    let word = match random.below(8) {
        0 => random.next(),
        1 => other,
        2 => now & !INFO | page,
        3 => now | 1 << (44 + random.below(10)),
        4 => now & !(63 << 54) | other & 63 << 54,
        5 => now & !(15 << 60) | random.below(16) << 60,
        6 => 1 << 60 | random.below(64) << 54 | page,
        _ => now ^ 1 << random.below(64),
    };
    Command::SetSlot { index, register: Register(word) }
}

/// What undoes a write, as the table stands before it.
pub fn undo(table: &Table, write: &Command) -> Command {
    match *write {
        Command::Poke { index, .. } => Command::Poke { index, word: table.words()[index] },
        Command::SetSlot { index, .. } => Command::SetSlot { index, register: Register(table.slots()[index]) },
        _ => unreachable!("damage is a write to a word or a slot"),
    }
}
