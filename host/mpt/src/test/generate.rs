//! Calls at random: mostly ones that a monitor accepts, and every kind of bad input.

use super::edits::edit;
use super::layout::{open as open_registers, INFO};
use super::places::Places;
use crate::command::Command;
use crate::random::Random;
use mpt_monitor::{Address, Kind, Permission, Privilege, Register, Sdid, Slot, Strength, Table};

/// Any call.
pub fn call(random: &mut Random, table: &Table, places: &Places) -> Command {
    match random.below(20) {
        0 | 1 => open(random, table),
        2 => close(random, table),
        3 if random.percent(70) => Command::Sound,
        3 => Command::Apart(random.pick(&Strength::ALL)),
        4..=11 => Command::Edit(edit(random, table, places)),
        _ => lookup(random, table, places),
    }
}

/// A slot's number, mostly of the kind wanted.
pub fn slot(random: &mut Random, table: &Table, open: bool) -> Slot {
    let fit: Vec<u64> = (0..8).filter(|&slot| (table.slots()[slot as usize] != 0) == open).collect();
    match random.below(40) {
        0 => Slot(random.pick(&[8, 9, 64, 1 << 32, u64::MAX])),
        1 | 2 => Slot(random.below(8)),
        _ if fit.is_empty() => Slot(random.below(8)),
        _ => Slot(fit[random.edge(fit.len() as u64) as usize]),
    }
}

pub fn open(random: &mut Random, table: &Table) -> Command {
    let sdid = match random.below(20) {
        0 => random.pick(&[64, 64, 65, 127, 1 << 32, u64::MAX]),
        1 | 2 => random.pick(table.slots()) >> 54 & 63,
        3 => 0,
        4 => 63,
        _ => random.below(64),
    };
    Command::Open { slot: slot(random, table, false), sdid: Sdid(sdid) }
}

pub fn close(random: &mut Random, table: &Table) -> Command {
    Command::Close { slot: slot(random, table, true) }
}

pub fn permission(random: &mut Random) -> Permission {
    random.pick(&Permission::ALL)
}

/// Any kind of access.
pub fn kind(random: &mut Random) -> Kind {
    Kind::all().nth(random.below(9) as usize).expect("nine kinds")
}

pub fn lookup(random: &mut Random, table: &Table, places: &Places) -> Command {
    let privilege = if random.percent(10) { Privilege::Machine } else { random.pick(&Privilege::ALL[..2]) };
    let address = match random.below(16) {
        0 => random.next(),
        1 => places.space + random.below(1 << 20),
        2 => places.page_address(random) ^ 1 << random.below(64),
        3..=6 => places.byte_at_bound(random),
        _ => places.page_address(random) + random.edge(4096),
    };
    Command::Lookup { register: register(random, table), privilege, kind: kind(random), address: Address(address) }
}

/// A register for a lookup: an open slot's, near one, or anything.
fn register(random: &mut Random, table: &Table) -> Register {
    let open: Vec<Register> = open_registers(table).collect();
    let held = if open.is_empty() { 0 } else { random.pick(&open).0 };
    let first = table.frame().first.0;
    let page = first.wrapping_add(random.below(table.words().len() as u64 / 512 + 2)).wrapping_sub(1);
    Register(match random.below(24) {
        0 => random.next(),
        1 => held ^ 1 << random.below(64),
        2 => random.below(1024) << 44,
        3 => held & !(15 << 60) | random.below(16) << 60,
        4 => 1 << 60 | page & INFO,
        5 => 1 << random.below(64),
        6 => held | random.below(1024) << 44,
        7 => 0,
        _ => held,
    })
}
