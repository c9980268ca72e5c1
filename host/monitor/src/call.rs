//! A call as a value, with any numbers: it is the monitor's work to refuse.

use crate::answer::Answer;
use crate::table::Frame;
use crate::types::{Address, Kind, Permission, Privilege, Register, Sdid, Slot, Strength};

/// What a call reads: the frame, the words of the lent memory and the eight slots.
#[derive(Clone, Copy, Debug)]
pub struct View<'a> {
    pub frame: Frame,
    pub words: &'a [u64],
    pub slots: &'a [u64; 8],
}

/// What a call reads and whose words it may write. No call writes a slot: its caller does.
#[derive(Debug)]
pub struct ViewMut<'a> {
    pub frame: Frame,
    pub words: &'a mut [u64],
    pub slots: &'a [u64; 8],
}

/// A call that writes no word. Codes of a privilege, a kind and a strength are those of `mpt.h`, or any others.
#[derive(Clone, Copy, Debug, PartialEq, Eq)]
pub enum Reading {
    Lookup { register: Register, privilege: u64, kind: u64, address: Address },
    Close { slot: Slot },
    Sound,
    Apart { strength: u64 },
}

/// A call that may write words. The code of a permission is that of `mpt.h`, or any other.
#[derive(Clone, Copy, Debug, PartialEq, Eq)]
pub enum Writing {
    Open { slot: Slot, sdid: Sdid },
    Edit { slot: Slot, start: Address, length: u64, permission: u64, limit: u64 },
}

/// What an edit asks.
#[derive(Clone, Copy, Debug, PartialEq, Eq)]
pub struct Edit {
    pub slot: Slot,
    pub start: Address,
    /// In bytes.
    pub length: u64,
    /// [`Rwx`](Permission::Rwx) is for slot 0 alone: in slots 1 to 7 it is refused
    /// ([`NoWriteExecute`](crate::Refusal::NoWriteExecute)).
    pub permission: Permission,
    /// The most stores to make; [`MOST_STORES`](crate::MOST_STORES) is always enough, and in a loop that goes on while
    /// the edit is cut [`LEAST_LIMIT`](crate::LEAST_LIMIT).
    pub limit: u64,
}

/// Any call.
#[derive(Clone, Copy, Debug, PartialEq, Eq)]
pub enum Call {
    Reading(Reading),
    Writing(Writing),
}

impl Call {
    #[inline]
    pub fn lookup(register: Register, privilege: Privilege, kind: Kind, address: Address) -> Call {
        Call::Reading(Reading::Lookup { register, privilege: privilege.code(), kind: kind.code(), address })
    }

    #[inline]
    pub fn open(slot: Slot, sdid: Sdid) -> Call {
        Call::Writing(Writing::Open { slot, sdid })
    }

    #[inline]
    pub fn close(slot: Slot) -> Call {
        Call::Reading(Reading::Close { slot })
    }

    #[inline]
    pub fn edit(edit: Edit) -> Call {
        let Edit { slot, start, length, permission, limit } = edit;
        Call::Writing(Writing::Edit { slot, start, length, permission: permission.code(), limit })
    }

    #[inline]
    pub fn sound() -> Call {
        Call::Reading(Reading::Sound)
    }

    #[inline]
    pub fn apart(strength: Strength) -> Call {
        Call::Reading(Reading::Apart { strength: strength.code() })
    }

    /// What the caller writes after this answer: after an open the register, after a close zero.
    #[inline]
    pub fn slot_after(&self, answer: Answer) -> Option<(Slot, Register)> {
        match (*self, answer) {
            (Call::Writing(Writing::Open { slot, .. }), Answer::Opened(register)) => Some((slot, register)),
            (Call::Reading(Reading::Close { slot }), Answer::Closed(_)) => Some((slot, Register::EMPTY)),
            _ => None,
        }
    }
}
