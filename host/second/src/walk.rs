//! Entries, the walk and the lookup.

use crate::frame::{bits, Frame, Register};
use crate::{Permission, Refusal};

/// The effective privilege of an access.
#[derive(Clone, Copy, Debug, PartialEq, Eq)]
pub enum Privilege {
    User,
    Supervisor,
    Machine,
}

/// The access that the program asked for; its kind decides the fault.
#[derive(Clone, Copy, Debug, PartialEq, Eq)]
pub enum Original {
    Fetch,
    Load,
    Store,
}

/// What is done at the address: the access itself, or something on its behalf.
#[derive(Clone, Copy, Debug, PartialEq, Eq)]
pub enum Role {
    Itself,
    PageTableRead,
    Update,
}

#[derive(Clone, Copy, Debug, PartialEq, Eq)]
pub struct Access {
    pub original: Original,
    pub role: Role,
}

/// A lookup's answer.
#[derive(Clone, Copy, Debug, PartialEq, Eq)]
pub enum Looked {
    Allowed,
    Fault(u64),
    Refused(Refusal),
}

#[derive(Clone, Copy)]
pub enum Need {
    Read,
    Write,
    Execute,
}

impl Access {
    /// "A fetch needs execute, a load and a page-table read need read, a store and an A/D update
    /// need write."
    fn need(self) -> Need {
        match (self.role, self.original) {
            (Role::PageTableRead, _) => Need::Read,
            (Role::Update, _) => Need::Write,
            (Role::Itself, Original::Fetch) => Need::Execute,
            (Role::Itself, Original::Load) => Need::Read,
            (Role::Itself, Original::Store) => Need::Write,
        }
    }

    /// "The fault is that of the original access: fetch 1, load 5, store 7."
    fn cause(self) -> u64 {
        match self.original {
            Original::Fetch => 1,
            Original::Load => 5,
            Original::Store => 7,
        }
    }
}

/// Four permissions by three needs: read, write, execute.
pub fn may(permission: Permission, need: Need) -> bool {
    let (read, write, execute) = match permission {
        0 => (false, false, false),
        1 => (true, false, true),
        2 => (true, true, false),
        _ => (true, true, true),
    };
    match need {
        Need::Read => read,
        Need::Write => write,
        Need::Execute => execute,
    }
}

/// An L2 entry that keeps the rules.
#[derive(Clone, Copy, Debug, PartialEq, Eq)]
pub enum L2 {
    /// TYPE 0 to 3: one permission for the block.
    Whole(Permission),
    /// TYPE 4: the page number of an L1 page.
    Pages(u64),
    /// TYPE 6: a permission for each 2 MiB, lowest first.
    Pieces([Permission; 16]),
}

impl L2 {
    /// Nothing if the entry is against the rules, so that the access faults.
    pub fn from_word(word: u64) -> Option<L2> {
        let info = bits(word, 43, 0);
        let kind = bits(word, 46, 44);
        if bits(word, 63, 47) != 0 {
            return None;
        }
        match kind {
            0..=3 if info == 0 => Some(L2::Whole(kind as Permission)),
            4 => Some(L2::Pages(info)),
            6 if bits(info, 43, 32) == 0 => Some(L2::Pieces(pieces(info))),
            _ => None,
        }
    }

    pub fn to_word(self) -> u64 {
        match self {
            L2::Whole(permission) => u64::from(permission) << 44,
            L2::Pages(page) => 4 << 44 | page,
            L2::Pieces(each) => {
                let place = |(n, &p): (usize, &Permission)| u64::from(p) << (2 * n);
                6 << 44 | each.iter().enumerate().map(place).sum::<u64>()
            }
        }
    }
}

fn pieces(info: u64) -> [Permission; 16] {
    std::array::from_fn(|n| bits(info, 2 * n as u32 + 1, 2 * n as u32) as Permission)
}

/// The permissions of an L1 entry's 16 pages, lowest first; nothing where one of them has a
/// reserved bit set. "Now a reserved bit set in any of its 16 fields faults the access." (Document 02.)
pub fn l1_permissions(entry: u64) -> Option<[Permission; 16]> {
    let field = |number: u32| bits(entry, 4 * number + 3, 4 * number);
    let reserved = (0..16).any(|number| bits(field(number), 3, 2) != 0);
    (!reserved).then(|| std::array::from_fn(|number| bits(field(number as u32), 1, 0) as Permission))
}

/// The walk: the permission at an address, or nothing where it faults.
pub fn permission_at(frame: Frame, words: &[u64], root: u64, address: u64) -> Option<Permission> {
    if address >= 1 << frame.paw {
        return None;
    }
    let pn = [bits(address, 15, 12), bits(address, 24, 16), address >> 25];
    match L2::from_word(frame.page(words, root)?[pn[2] as usize])? {
        L2::Whole(permission) => Some(permission),
        L2::Pieces(each) => Some(each[bits(address, 24, 21) as usize]),
        L2::Pages(page) => Some(l1_permissions(frame.page(words, page)?[pn[1] as usize])?[pn[0] as usize]),
    }
}

/// "MODE 0 is Bare, 1 is Smmpt46; others are refused in the base. Bare with PPN or SDID not zero
/// is refused."
fn register_refused(register: Register) -> bool {
    match register.mode {
        0 => register.ppn != 0 || register.sdid != 0,
        1 => false,
        _ => true,
    }
}

/// Checks the frame, then the register, then privilege and Bare, then walks.
pub fn lookup(frame: Frame, words: &[u64], mmpt: u64, privilege: Privilege, access: Access, address: u64) -> Looked {
    if !frame.within_bounds(words) {
        return Looked::Refused(1);
    }
    let register = Register::from_word(mmpt);
    if register_refused(register) {
        return Looked::Refused(2);
    }
    if privilege == Privilege::Machine || register.mode == 0 {
        return Looked::Allowed;
    }
    match permission_at(frame, words, register.ppn, address) {
        Some(permission) if may(permission, access.need()) => Looked::Allowed,
        _ => Looked::Fault(access.cause()),
    }
}
