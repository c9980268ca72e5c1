//! The proved library, called by C's rules.

use crate::answer::Answer;
use crate::call::{Reading, View, ViewMut, Writing};
use crate::interface::Interface;
use crate::word;

/// As in `include/mpt.h`, which explains each argument and each part of the one word that is answered.
mod c {
    extern "C" {
        pub fn mpt_lookup(
            paw: u64,
            first: u64,
            words: *const u64,
            count: usize,
            mmpt: u64,
            privilege: u64,
            kind: u64,
            address: u64,
        ) -> u64;
        pub fn mpt_open(
            paw: u64,
            first: u64,
            words: *mut u64,
            count: usize,
            slots: *const [u64; 8],
            slot: u64,
            sdid: u64,
        ) -> u64;
        pub fn mpt_close(
            paw: u64,
            first: u64,
            words: *const u64,
            count: usize,
            slots: *const [u64; 8],
            slot: u64,
        ) -> u64;
        pub fn mpt_edit(
            paw: u64,
            first: u64,
            words: *mut u64,
            count: usize,
            slots: *const [u64; 8],
            slot: u64,
            start: u64,
            length: u64,
            permission: u64,
            limit: u64,
        ) -> u64;
        pub fn mpt_sound(paw: u64, first: u64, words: *const u64, count: usize, slots: *const [u64; 8]) -> u64;
        pub fn mpt_apart(
            paw: u64,
            first: u64,
            words: *const u64,
            count: usize,
            slots: *const [u64; 8],
            strength: u64,
        ) -> u64;
        pub fn mpt_version() -> u64;
    }
}

/// The proved library that MPT_LIBRARY named when this was built.
#[derive(Clone, Copy, Debug, Default)]
pub struct Proved;

/// The version of the interface that this crate is written for, as `MPT_VERSION` in `mpt.h`.
pub const VERSION: u64 = (2 << 16) + 1;

impl Proved {
    /// The library's version.
    pub fn version(self) -> u64 {
        // SAFETY: a call without arguments that answers a constant.
        unsafe { c::mpt_version() }
    }
}

// SAFETY of all six: each pointer comes from a slice with its own length or from an array of eight,
// the borrows say which may be written and that none overlap, and the library keeps none of them
// after the call.
//
// Always inline: where the call is known, what is left of it is the library's call, its numbers in
// registers.
impl Interface for Proved {
    #[inline(always)]
    fn read(&self, table: View<'_>, call: Reading) -> Answer {
        let View { frame, words, slots } = table;
        let (paw, first, at, count) = (frame.paw, frame.first.0, words.as_ptr(), words.len());
        match call {
            Reading::Lookup { register, privilege, kind, address } => {
                word::looked(unsafe { c::mpt_lookup(paw, first, at, count, register.0, privilege, kind, address.0) })
            }
            Reading::Close { slot } => word::closed(unsafe { c::mpt_close(paw, first, at, count, slots, slot.0) }),
            Reading::Sound => word::sound(unsafe { c::mpt_sound(paw, first, at, count, slots) }),
            Reading::Apart { strength } => {
                word::tested(unsafe { c::mpt_apart(paw, first, at, count, slots, strength) })
            }
        }
    }

    #[inline(always)]
    fn write(&self, table: ViewMut<'_>, call: Writing) -> Answer {
        let ViewMut { frame, words, slots } = table;
        let (paw, first, at, count) = (frame.paw, frame.first.0, words.as_mut_ptr(), words.len());
        match call {
            Writing::Open { slot, sdid } => {
                word::opened(unsafe { c::mpt_open(paw, first, at, count, slots, slot.0, sdid.0) })
            }
            Writing::Edit { slot, start, length, permission, limit } => {
                let word =
                    unsafe { c::mpt_edit(paw, first, at, count, slots, slot.0, start.0, length, permission, limit) };
                word::edited(word, start)
            }
        }
    }
}
