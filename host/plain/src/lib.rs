//! Document 01, with items 3, 6 and 13 of document 02, in ordinary safe Rust over words, written for speed: the
//! yardstick beside which the proved monitor is measured, and a third opinion in tests.
//!
//! The calls take any numbers, as those of the C interface in `include/mpt.h` do, and answer values.
#![forbid(unsafe_code)]

mod apart;
mod block;
mod check;
mod domain;
mod edit;
mod lent;
mod look;

pub use apart::apart;
pub use check::{sound, sound_obvious};
pub use domain::{close, open};
pub use edit::edit;
pub use look::lookup;

/// Where the lent memory lies: PAW and the number of its first page.
#[derive(Clone, Copy, Debug)]
pub struct Frame {
    pub paw: u64,
    pub first: u64,
}

/// A refusal's number, or 255: a code is outside its kind.
pub type Refusal = u64;

/// What a lookup answers; a fault by its cause.
#[derive(Clone, Copy, Debug, PartialEq, Eq)]
pub enum Looked {
    Allowed,
    Fault(u64),
    Refused(Refusal),
}

/// What an edit asks.
#[derive(Clone, Copy, Debug)]
pub struct Asked {
    pub slot: u64,
    pub start: u64,
    pub length: u64,
    pub permission: u64,
    pub limit: u64,
}

/// What an edit answers.
#[derive(Clone, Copy, Debug, PartialEq, Eq)]
pub struct Edited {
    pub stores: u64,
    pub all: bool,
    pub fence: Fence,
}

#[derive(Clone, Copy, Debug, PartialEq, Eq)]
pub enum Fence {
    None,
    Domain { sdid: u64 },
    Address { address: u64, sdid: u64 },
}

/// Whether the domains are kept apart; if not, the lowest page at fault, the lowest slots, and whether it may be written.
#[derive(Clone, Copy, Debug, PartialEq, Eq)]
pub enum Separation {
    Apart,
    TableOpen { page: u64, slot: u64, written: bool },
    PageShared { page: u64, slot: u64, other: u64, written: bool },
}

pub(crate) const OUTSIDE_KIND: u64 = 255;
pub(crate) const BAD_FRAME: u64 = 1;
pub(crate) const BAD_REGISTER: u64 = 2;
pub(crate) const NOT_SOUND: u64 = 3;
pub(crate) const BAD_SLOT: u64 = 4;
pub(crate) const BAD_RANGE: u64 = 5;
pub(crate) const MEETS_LENT: u64 = 6;
pub(crate) const NO_PAGE: u64 = 7;
pub(crate) const BAD_SDID: u64 = 8;
pub(crate) const NO_WRITE_EXECUTE: u64 = 10;
