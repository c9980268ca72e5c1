//! What the monitor answers.

use crate::types::{Address, PageNumber, Register, Sdid, Slot};
use core::fmt;

/// The answer of any call.
#[derive(Clone, Copy, Debug, PartialEq, Eq)]
#[must_use = "a call may be refused, may be cut, and may ask for a fence"]
pub enum Answer {
    Refused(Refusal),
    /// A code of a privilege, a kind, a permission or a strength that names none.
    OutsideKind,
    /// Of a lookup.
    Looked(Verdict),
    /// Of an open: the domain's register, which its caller writes to the slot.
    Opened(Register),
    /// Of a close, whose caller empties the slot.
    Closed(Fence),
    Edited(Edited),
    Sound,
    /// Of the test whether the domains are kept apart.
    Tested(Separation),
    /// A word that `mpt.h` does not name for the call: the library is of another interface.
    Unknown(u64),
}

/// May the access be made?
#[derive(Clone, Copy, Debug, PartialEq, Eq)]
#[must_use = "the access may fault"]
pub enum Verdict {
    Allowed,
    Fault(Cause),
}

/// The cause of a fault, by its number in the Privileged Architecture.
#[derive(Clone, Copy, Debug, PartialEq, Eq)]
pub enum Cause {
    Fetch = 1,
    Load = 5,
    Store = 7,
}

/// Why the monitor said no, by its number in documents 01 and 02. Later versions may add numbers.
///
/// ```
/// # use mpt_monitor::*;
/// assert_eq!(Refusal::from_number(6), Some(Refusal::MeetsLent));
/// assert_eq!(Refusal::from_number(10), Some(Refusal::NoWriteExecute));
/// assert_eq!((Refusal::from_number(0), Refusal::from_number(9)), (None, None));
/// ```
///
/// So a match needs an arm for those, and without its last line this one does not compile:
///
/// ```
/// # use mpt_monitor::*;
/// fn may_try_again(refusal: Refusal) -> bool {
///     match refusal {
///         Refusal::BadFrame | Refusal::BadRegister | Refusal::NotSound | Refusal::BadSlot => false,
///         Refusal::BadRange | Refusal::MeetsLent | Refusal::BadSdid | Refusal::NoWriteExecute => false,
///         Refusal::NoFreePage => true,
///         _ => false,
///     }
/// }
/// ```
///
/// ```compile_fail,E0004
/// # use mpt_monitor::*;
/// # fn may_try_again(refusal: Refusal) -> bool {
/// #   match refusal {
/// #       Refusal::BadFrame | Refusal::BadRegister | Refusal::NotSound | Refusal::BadSlot => false,
/// #       Refusal::BadRange | Refusal::MeetsLent | Refusal::BadSdid | Refusal::NoWriteExecute => false,
///         Refusal::NoFreePage => true,
///     }
/// # }
/// ```
#[derive(Clone, Copy, Debug, PartialEq, Eq)]
#[non_exhaustive]
pub enum Refusal {
    BadFrame = 1,
    BadRegister = 2,
    NotSound = 3,
    BadSlot = 4,
    BadRange = 5,
    MeetsLent = 6,
    NoFreePage = 7,
    BadSdid = 8,
    /// rwx was asked for in one of the slots 1 to 7.
    NoWriteExecute = 10,
}

/// The fence that a call asks for. SDID 0 and address 0 are values like any other.
#[derive(Clone, Copy, Debug, PartialEq, Eq)]
#[must_use = "harts may remember old permissions until this fence is made"]
pub enum Fence {
    None,
    Domain(Sdid),
    Address(Address, Sdid),
}

/// The answer to an accepted edit.
#[derive(Clone, Copy, Debug, PartialEq, Eq)]
#[must_use = "an edit may be cut, and may ask for a fence"]
pub struct Edited {
    pub stores: u64,
    /// Whether those were all. If not, the next edit of the domain must be the same one.
    pub all: bool,
    pub fence: Fence,
}

/// Whether the domains are kept apart; if not, of the lowest page at fault the lowest slots. A page that is at fault in
/// both ways is told as a table's.
#[derive(Clone, Copy, Debug, PartialEq, Eq)]
#[must_use = "the domains may not be kept apart"]
pub enum Separation {
    Apart,
    /// A table page, that is an open slot's root or an L1 page that an entry of one names, and a slot that may write it
    /// (strict: to which it is open).
    TableOpen {
        page: PageNumber,
        slot: Slot,
        /// Whether the slot may write it.
        written: bool,
    },
    /// A page of two slots: open to both, and one may write it (strict: open to both).
    PageShared {
        page: PageNumber,
        slot: Slot,
        /// Above `slot`.
        other: Slot,
        /// Whether one of the two may write it.
        written: bool,
    },
}

impl Answer {
    /// A refusal by its number.
    #[inline]
    pub fn refused(number: u64) -> Answer {
        match Refusal::from_number(number) {
            Some(refusal) => Answer::Refused(refusal),
            None => Answer::Unknown(number),
        }
    }

    /// A fault by the number of its cause.
    #[inline]
    pub fn fault(number: u64) -> Answer {
        match Cause::from_number(number) {
            Some(cause) => Answer::Looked(Verdict::Fault(cause)),
            None => Answer::Unknown(number),
        }
    }
}

impl Cause {
    pub const ALL: [Cause; 3] = [Cause::Fetch, Cause::Load, Cause::Store];

    #[inline]
    pub fn number(self) -> u64 {
        self as u64
    }

    #[inline]
    pub fn from_number(number: u64) -> Option<Cause> {
        match number {
            1 => Some(Cause::Fetch),
            5 => Some(Cause::Load),
            7 => Some(Cause::Store),
            _ => None,
        }
    }
}

impl Refusal {
    pub const ALL: [Refusal; 9] = [
        Refusal::BadFrame,
        Refusal::BadRegister,
        Refusal::NotSound,
        Refusal::BadSlot,
        Refusal::BadRange,
        Refusal::MeetsLent,
        Refusal::NoFreePage,
        Refusal::BadSdid,
        Refusal::NoWriteExecute,
    ];

    #[inline]
    pub fn number(self) -> u64 {
        self as u64
    }

    #[inline]
    pub fn from_number(number: u64) -> Option<Refusal> {
        Refusal::ALL.into_iter().find(|refusal| refusal.number() == number)
    }
}

impl fmt::Display for Refusal {
    fn fmt(&self, f: &mut fmt::Formatter) -> fmt::Result {
        f.write_str(match self {
            Refusal::BadFrame => {
                "the frame breaks its bounds: PAW 30 to 34, 2 to 256 whole pages, first page + pages at most 2^(PAW-12)"
            }
            Refusal::BadRegister => "the register's MODE is above 1, or it is Bare with PPN or SDID not zero",
            Refusal::NotSound => "the table is not sound",
            Refusal::BadSlot => "the slot is above 7, or empty, or in use already",
            Refusal::BadRange => "the range is not whole pages inside the address space",
            Refusal::MeetsLent => "the range meets the lent pages",
            Refusal::NoFreePage => "too few pages are free",
            Refusal::BadSdid => "the SDID is above 63 or held by another open slot",
            Refusal::NoWriteExecute => "rwx is asked for in one of the slots 1 to 7",
        })
    }
}

#[cfg(feature = "std")]
impl std::error::Error for Refusal {}
