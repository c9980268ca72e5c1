//! Numbers that must not be mixed, and the small sets that document 01 names.

use core::fmt;

/// A physical address.
#[derive(Clone, Copy, Debug, PartialEq, Eq, PartialOrd, Ord, Hash)]
pub struct Address(pub u64);

/// The number of a page: an address divided by 4,096.
#[derive(Clone, Copy, Debug, PartialEq, Eq, PartialOrd, Ord, Hash)]
pub struct PageNumber(pub u64);

/// A supervisor domain's number. The monitor takes 0 to 63.
#[derive(Clone, Copy, Debug, PartialEq, Eq, PartialOrd, Ord, Hash)]
pub struct Sdid(pub u64);

/// A slot's number. The monitor takes 0 to 7.
#[derive(Clone, Copy, Debug, PartialEq, Eq, PartialOrd, Ord, Hash)]
pub struct Slot(pub u64);

/// An mmpt value: PPN 43:0, WPRI 53:44, SDID 59:54, MODE 63:60. Zero is Bare, which allows every access, and is also
/// what an empty slot holds ([`Register::EMPTY`]).
///
/// ```
/// # use mpt_monitor::*;
/// let register = Register(0x1140_0000_0008_0000);
/// assert_eq!((register.mode(), register.sdid(), register.root()), (1, Sdid(5), PageNumber(0x80000)));
/// ```
#[derive(Clone, Copy, Debug, PartialEq, Eq, Hash)]
pub struct Register(pub u64);

impl PageNumber {
    /// The address at which the page begins, if it is below 2^64.
    ///
    /// ```
    /// # use mpt_monitor::*;
    /// assert_eq!(PageNumber(0x80000).address(), Some(Address(0x8000_0000)));
    /// assert_eq!(Address(0x8000_0FFF).page(), PageNumber(0x80000));
    /// assert_eq!(PageNumber(1 << 52).address(), None);
    /// ```
    pub fn address(self) -> Option<Address> {
        self.0.checked_mul(4096).map(Address)
    }
}

impl Address {
    /// The page that holds the address.
    pub fn page(self) -> PageNumber {
        PageNumber(self.0 >> 12)
    }
}

impl Register {
    /// What an empty slot holds. **As a register it is Bare, which allows every access**: of a slot,
    /// [`lookup_slot`](crate::Monitor::lookup_slot) is asked.
    pub const EMPTY: Register = Register(0);

    /// MODE 15, which is none: every lookup refuses it.
    pub const NONE: Register = Register(15 << 60);

    /// A slot that holds zero is empty.
    pub fn is_empty(self) -> bool {
        self.0 == 0
    }

    pub fn root(self) -> PageNumber {
        PageNumber(self.0 & ((1 << 44) - 1))
    }

    /// 0 Bare, 1 Smmpt46.
    pub fn mode(self) -> u64 {
        self.0 >> 60
    }

    pub fn sdid(self) -> Sdid {
        Sdid(self.0 >> 54 & 63)
    }
}

impl fmt::Display for Register {
    fn fmt(&self, f: &mut fmt::Formatter) -> fmt::Result {
        write!(f, "{:#018x}", self.0)
    }
}

/// What a domain may do with a page.
#[derive(Clone, Copy, Debug, PartialEq, Eq, Hash)]
pub enum Permission {
    None,
    Rx,
    Rw,
    Rwx,
}

impl Permission {
    pub const ALL: [Permission; 4] = [Permission::None, Permission::Rx, Permission::Rw, Permission::Rwx];

    pub fn code(self) -> u64 {
        self as u64
    }

    /// The paper's name for it.
    pub fn name(self) -> &'static str {
        ["none", "rx", "rw", "rwx"][self as usize]
    }
}

/// The access that the program asked for.
#[derive(Clone, Copy, Debug, PartialEq, Eq, Hash)]
pub enum Access {
    Fetch,
    Load,
    Store,
}

impl Access {
    pub const ALL: [Access; 3] = [Access::Fetch, Access::Load, Access::Store];
}

/// A kind of access: the access itself, or one on its behalf.
#[derive(Clone, Copy, Debug, PartialEq, Eq, Hash)]
pub enum Kind {
    Itself(Access),
    PageTableRead(Access),
    Update(Access),
}

impl Kind {
    /// All nine, in the order of their codes.
    pub fn all() -> impl Iterator<Item = Kind> {
        let ways = [Kind::Itself, Kind::PageTableRead, Kind::Update];
        ways.into_iter().flat_map(|way| Access::ALL.map(way))
    }

    pub fn code(self) -> u64 {
        match self {
            Kind::Itself(access) => access as u64,
            Kind::PageTableRead(access) => 3 + access as u64,
            Kind::Update(access) => 6 + access as u64,
        }
    }
}

/// How much is asked for domains to be kept apart.
#[derive(Clone, Copy, Debug, PartialEq, Eq, Hash)]
pub enum Strength {
    /// Of two domains to which a page is open neither may write it, and no domain may write a table page. Domains may so
    /// share what none of them may write.
    Sharing,
    /// No page is open to two domains, and no table page to any: the premise of document 02's item 13.
    Strict,
}

impl Strength {
    pub const ALL: [Strength; 2] = [Strength::Sharing, Strength::Strict];

    pub fn code(self) -> u64 {
        self as u64
    }
}

/// The effective privilege of an access.
#[derive(Clone, Copy, Debug, PartialEq, Eq, Hash)]
pub enum Privilege {
    User,
    Supervisor,
    Machine,
}

impl Privilege {
    pub const ALL: [Privilege; 3] = [Privilege::User, Privilege::Supervisor, Privilege::Machine];

    pub fn code(self) -> u64 {
        match self {
            Privilege::User => 0,
            Privilege::Supervisor => 1,
            Privilege::Machine => 3,
        }
    }
}
