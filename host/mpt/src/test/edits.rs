//! Edits at random: good ranges, most where something is, and every kind of bad one.

use super::generate::{permission, slot};
use super::layout::{entries, linked, within_bounds};
use super::places::{Odd, Places, UNITS};
use crate::random::Random;
use mpt_monitor::{Address, Edit, Permission, Register, Slot, Table};
use std::ops::Range;

/// An edit: mostly of an open slot and a good range.
pub fn edit(random: &mut Random, table: &Table, places: &Places) -> Edit {
    if !places.odd.is_empty() && random.percent(25) {
        let paged: Vec<&Odd> = places.odd.iter().filter(|odd| odd.in_l1).collect();
        let any = &places.odd[random.below(places.odd.len() as u64) as usize];
        let odd = if paged.is_empty() || random.percent(40) { any } else { random.pick(&paged) };
        return over_odd(random, odd);
    }
    let slot = slot(random, table, true);
    let start = places.page_address(random);
    let range = match random.below(10) {
        0 | 1 => places.range(random),
        2..=5 => between_blocks(random, table, slot).unwrap_or_else(|| places.range(random)),
        6 => places.inside(random),
        _ => start..start + length(random, places, start),
    };
    let mut edit = Edit {
        slot,
        start: Address(range.start),
        length: range.end - range.start,
        permission: permission_in(random, slot),
        limit: limit(random),
    };
    // two wrongs at once show which refusal comes first
    for _ in 0..random.pick(&[0, 0, 0, 0, 0, 0, 0, 0, 0, 0, 0, 0, 1, 2]) {
        spoil(random, places, &mut edit);
    }
    edit
}

/// An edit of one page in a block that has no L1 page; nothing if no domain has such a block.
pub fn for_a_new_page(random: &mut Random, table: &Table) -> Option<Edit> {
    let slot = slot(random, table, true);
    let register = Register(*table.slots().get(usize::try_from(slot.0).ok()?)?);
    let root = entries(table, register)?;
    let without: Vec<u64> = (0..).zip(root).filter(|(_, entry)| linked(**entry).is_none()).map(|(n, _)| n).collect();
    let block = if without.is_empty() { return None } else { random.pick(&without) };
    let start = Address((block << 25) + (random.edge(8192) << 12));
    Some(Edit { slot, start, length: 4096, permission: permission_in(random, slot), limit: limit(random) })
}

/// What an edit of a slot asks for: rwx in slots 1 to 7 less often, since it is refused there.
fn permission_in(random: &mut Random, slot: Slot) -> Permission {
    match permission(random) {
        Permission::Rwx if slot != Slot(0) && random.percent(60) => random.pick(&Permission::ALL[..3]),
        any => any,
    }
}

/// Mostly an edit that makes a GiB whole again, or just not.
fn over_odd(random: &mut Random, odd: &Odd) -> Edit {
    let unit = random.pick(&UNITS);
    let range = match random.below(6) {
        0 => odd.range.start / unit * unit..(odd.range.end - 1) / unit * unit + unit,
        1 => odd.range.start..odd.range.end - (odd.range.end - odd.range.start) / 2 / 4096 * 4096,
        _ => odd.range.clone(),
    };
    Edit {
        slot: Slot(odd.slot),
        start: Address(range.start),
        length: range.end - range.start,
        permission: if random.percent(75) { odd.rest } else { permission_in(random, Slot(odd.slot)) },
        limit: limit(random),
    }
}

/// From a block to the same or a near one, each with an L1 page if there is one to be found, and each
/// met as a whole or in part: so that pages are linked, changed and unlinked in one edit.
fn between_blocks(random: &mut Random, table: &Table, slot: Slot) -> Option<Range<u64>> {
    let register = *table.slots().get(usize::try_from(slot.0).ok()?)?;
    let root = within_bounds(table).then(|| entries(table, Register(register))).flatten()?;
    let with_page: Vec<usize> = (0..root.len()).filter(|&block| linked(root[block]).is_some()).collect();
    let low = match with_page.is_empty() || random.percent(30) {
        true => random.edge(root.len() as u64) as usize,
        false => random.pick(&with_page),
    };
    let step = random.pick(&[0, 1, 1, 1, 2, 3, 31, 32]);
    let other = if random.percent(50) { low.saturating_sub(step) } else { (low + step).min(root.len() - 1) };
    let (low, high) = (low.min(other), low.max(other));
    let inside = |random: &mut Random| {
        let unit = random.pick(&UNITS[..3]);
        random.edge(UNITS[3] / unit) * unit
    };
    let start = ((low as u64) << 25) + if random.percent(40) { 0 } else { inside(random) };
    let end = ((high as u64) << 25) + if random.percent(40) { UNITS[3] } else { inside(random) };
    Some(start..end.max(start + 4096))
}

/// A length in whole pages that stays in the address space.
fn length(random: &mut Random, places: &Places, start: u64) -> u64 {
    let units = if random.percent(25) { &UNITS[..] } else { &UNITS[..4] };
    let unit = random.pick(units);
    let length = match random.below(10) {
        0..=2 => 4096,
        3 => 4096 * (1 + random.below(40)),
        4 | 5 => unit,
        6 => unit * (1 + random.below(3)),
        7 => unit - start % unit,
        8 => 2 * unit - start % unit + 4096 * random.below(3) - 4096,
        _ if random.percent(10) => places.space,
        _ => unit + 4096,
    };
    length.max(4096).min(places.space - start)
}

/// One thing wrong with an edit's slot or range, or just not.
fn spoil(random: &mut Random, places: &Places, edit: &mut Edit) {
    let odd = 1 + random.edge(4095);
    let rest = places.space.wrapping_sub(edit.start.0);
    match random.below(11) {
        0 => edit.length = 0,
        1 => edit.start.0 = edit.start.0.wrapping_add(odd),
        2 => edit.length = edit.length.wrapping_add(odd),
        3 => edit.length = rest.wrapping_add(4096),
        4 => edit.length = rest,
        5 => (edit.start.0, edit.length) = (u64::MAX - 4095, 4096 * random.below(3)),
        6 => edit.start.0 = edit.start.0.wrapping_add(places.space),
        7 => edit.length = edit.length.wrapping_add(1 << 63),
        8 => (edit.start.0, edit.length) = (places.space, 4096 * random.below(3)),
        9 => edit.start.0 ^= 1 << (32 + random.below(32)),
        _ => edit.slot = Slot(random.below(10)),
    }
}

pub fn limit(random: &mut Random) -> u64 {
    match random.below(10) {
        0..=5 => random.pick(&[1536, u64::MAX]),
        6 => random.pick(&[0, 1, 2, 31, 32, 33, 511, 512, 513, 514, 1024, 1025, 1026, 1027]),
        7 => random.below(40),
        8 => random.below(1600),
        _ => random.next(),
    }
}
