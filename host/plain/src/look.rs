//! The lookup.

use crate::lent::{Lent, PPN, RESERVED};
use crate::{Frame, Looked, BAD_FRAME, BAD_REGISTER, OUTSIDE_KIND};

/// PPN and SDID, which Bare must leave zero.
const NOT_BARE: u64 = 63 << 54 | PPN;
/// Causes by original access: fetch, load, store.
const CAUSE: [u64; 3] = [1, 5, 7];
/// The permissions that allow each kind of access, one bit for each: rx is bit 1, rw 2, rwx 3.
const READ: u8 = 0b1110;
const WRITE: u8 = 0b1100;
const EXECUTE: u8 = 0b1010;
const ALLOWED_BY: [u8; 9] = [EXECUTE, READ, WRITE, READ, READ, READ, WRITE, WRITE, WRITE];

/// Kinds 0 to 2 are fetch, load, store; 3 to 5 a page-table read for these; 6 to 8 an A/D update.
pub fn lookup(frame: Frame, words: &[u64], mmpt: u64, privilege: u64, kind: u64, address: u64) -> Looked {
    if kind > 8 || privilege > 3 || privilege == 2 {
        return Looked::Refused(OUTSIDE_KIND);
    }
    let lent = match Lent::new(frame, words.len()) {
        Some(lent) => lent,
        None => return Looked::Refused(BAD_FRAME),
    };
    match mmpt >> 60 {
        0 if mmpt & NOT_BARE == 0 => return Looked::Allowed,
        1 if privilege == 3 => return Looked::Allowed,
        1 => {}
        _ => return Looked::Refused(BAD_REGISTER),
    }
    match walk(lent, words, mmpt & PPN, address) {
        Some(permission) if ALLOWED_BY[kind as usize] >> permission & 1 == 1 => Looked::Allowed,
        _ => Looked::Fault(CAUSE[kind as usize % 3]),
    }
}

/// The permission that a walk from a root finds; nothing where it faults.
#[inline]
pub fn walk(lent: Lent, words: &[u64], root: u64, address: u64) -> Option<u64> {
    if address >> lent.paw != 0 {
        return None;
    }
    let entry = words[lent.index(root)? * 512 + (address >> 25) as usize];
    let info = entry & PPN;
    match entry >> 44 {
        kind @ 0..=3 if info == 0 => Some(kind),
        6 if info < 1 << 32 => Some(info >> (address >> 20 & 30) & 3),
        4 => {
            let entry = words[lent.index(info)? * 512 + (address >> 16 & 511) as usize];
            (entry & RESERVED == 0).then_some(entry >> (address >> 10 & 60) & 3)
        }
        _ => None,
    }
}
