//! The programs at hand, each behind the one interface.

use mpt_monitor::{
    Address, Answer, Interface, Monitor, PageNumber, Reading, Register, Sdid, Separation, Slot, Verdict, View, ViewMut,
    Writing,
};

/// One implementation of the papers.
#[derive(Clone, Copy)]
pub struct Program {
    pub name: &'static str,
    pub interface: &'static dyn Interface,
}

impl Program {
    pub fn monitor(&self) -> Monitor<&'static dyn Interface> {
        Monitor::over(self.interface)
    }
}

pub const SECOND: Program = Program { name: "second", interface: &Second };
pub const PLAIN: Program = Program { name: "plain", interface: &Plain };
#[cfg(feature = "proved")]
pub const PROVED: Option<Program> = Some(Program { name: "proved", interface: &mpt_monitor::Proved });
#[cfg(not(feature = "proved"))]
pub const PROVED: Option<Program> = None;

/// The proved program, where it is built in, and then the others.
pub fn all() -> Vec<Program> {
    PROVED.into_iter().chain([SECOND, PLAIN]).collect()
}

/// The proved program, or what stands in for it in this build; it says so once.
pub fn proved_or(other: Program) -> Program {
    PROVED.unwrap_or_else(|| {
        crate::output::complain(format!("built without the proved library (feature `proved`): using `{}`", other.name));
        other
    })
}

pub struct Plain;

// always inline, as the proved program's, beside which it is measured
impl Interface for Plain {
    #[inline(always)]
    fn read(&self, table: View<'_>, call: Reading) -> Answer {
        let View { frame, words, slots } = table;
        let frame = plain::Frame { paw: frame.paw, first: frame.first.0 };
        match call {
            Reading::Lookup { register, privilege, kind, address } => {
                match plain::lookup(frame, words, register.0, privilege, kind, address.0) {
                    plain::Looked::Allowed => Answer::Looked(Verdict::Allowed),
                    plain::Looked::Fault(cause) => Answer::fault(cause),
                    plain::Looked::Refused(number) => undone(number),
                }
            }
            Reading::Close { slot } => plain::close(frame, words, slots, slot.0)
                .map_or_else(undone, |fence| Answer::Closed(plain_fence(fence))),
            Reading::Sound => plain::sound(frame, words, slots).map_or_else(undone, |()| Answer::Sound),
            Reading::Apart { strength } => plain::apart(frame, words, slots, strength)
                .map_or_else(undone, |separation| Answer::Tested(plain_separation(separation))),
        }
    }

    #[inline(always)]
    fn write(&self, table: ViewMut<'_>, call: Writing) -> Answer {
        let ViewMut { frame, words, slots } = table;
        let frame = plain::Frame { paw: frame.paw, first: frame.first.0 };
        match call {
            Writing::Open { slot, sdid } => plain::open(frame, words, slots, slot.0, sdid.0)
                .map_or_else(undone, |register| Answer::Opened(Register(register))),
            Writing::Edit { slot, start, length, permission, limit } => {
                let asked = plain::Asked { slot: slot.0, start: start.0, length, permission, limit };
                match plain::edit(frame, words, slots, asked) {
                    Ok(plain::Edited { stores, all, fence }) => {
                        Answer::Edited(mpt_monitor::Edited { stores, all, fence: plain_fence(fence) })
                    }
                    Err(number) => undone(number),
                }
            }
        }
    }
}

#[inline]
fn plain_fence(fence: plain::Fence) -> mpt_monitor::Fence {
    match fence {
        plain::Fence::None => mpt_monitor::Fence::None,
        plain::Fence::Domain { sdid } => mpt_monitor::Fence::Domain(Sdid(sdid)),
        plain::Fence::Address { address, sdid } => mpt_monitor::Fence::Address(Address(address), Sdid(sdid)),
    }
}

#[inline]
fn plain_separation(separation: plain::Separation) -> Separation {
    match separation {
        plain::Separation::Apart => Separation::Apart,
        plain::Separation::TableOpen { page, slot, written } => {
            Separation::TableOpen { page: PageNumber(page), slot: Slot(slot), written }
        }
        plain::Separation::PageShared { page, slot, other, written } => {
            Separation::PageShared { page: PageNumber(page), slot: Slot(slot), other: Slot(other), written }
        }
    }
}

/// A refusal's number, or 255: a code outside its kind.
#[inline]
fn undone(number: u64) -> Answer {
    match number {
        255 => Answer::OutsideKind,
        _ => Answer::refused(number),
    }
}

/// The second program changes its slots itself, as document 01 has it. It is given a copy: whoever
/// makes the call writes the slot, and what the program did to the copy must be that.
struct Second;

impl Interface for Second {
    fn read(&self, table: View<'_>, call: Reading) -> Answer {
        let View { frame, words, slots } = table;
        let frame = second::Frame { paw: frame.paw, first: frame.first.0 };
        match call {
            Reading::Lookup { register, privilege, kind, address } => {
                second_lookup(frame, words, [register.0, privilege, kind, address.0])
            }
            Reading::Close { slot } => {
                let mut after = *slots;
                let closed = second::close(frame, words, &mut after, slot.0);
                check_slots(slots, &after, closed.is_ok().then_some((slot.0, 0)));
                closed.map_or_else(Answer::refused, |fence| Answer::Closed(second_fence(fence)))
            }
            Reading::Sound if !frame.within_bounds(words) => Answer::refused(1),
            Reading::Sound if !second::sound(frame, words, slots) => Answer::refused(3),
            Reading::Sound => Answer::Sound,
            Reading::Apart { strength } => match strength_of(strength) {
                Some(strength) => {
                    second::apart(frame, words, slots, strength).map_or_else(Answer::refused, second_separation)
                }
                None => Answer::OutsideKind,
            },
        }
    }

    fn write(&self, table: ViewMut<'_>, call: Writing) -> Answer {
        let ViewMut { frame, words, slots } = table;
        let frame = second::Frame { paw: frame.paw, first: frame.first.0 };
        match call {
            Writing::Open { slot, sdid } => {
                let mut after = *slots;
                let opened = second::open(frame, words, &mut after, slot.0, sdid.0);
                check_slots(slots, &after, opened.ok().map(|register| (slot.0, register)));
                opened.map_or_else(Answer::refused, |register| Answer::Opened(Register(register)))
            }
            Writing::Edit { permission: 4.., .. } => Answer::OutsideKind,
            Writing::Edit { slot, start, length, permission, limit } => {
                let asked = second::Asked { slot: slot.0, start: start.0, length, permission: permission as u8 };
                match second::edit(frame, words, slots, asked, limit) {
                    Ok(second::Edited { stores, all, fence }) => {
                        Answer::Edited(mpt_monitor::Edited { stores, all, fence: second_fence(fence) })
                    }
                    Err(number) => Answer::refused(number),
                }
            }
        }
    }
}

fn second_lookup(frame: second::Frame, words: &[u64], [register, privilege, kind, address]: [u64; 4]) -> Answer {
    let (privilege, access) = match (privilege_of(privilege), access_of(kind)) {
        (Some(privilege), Some(access)) => (privilege, access),
        _ => return Answer::OutsideKind,
    };
    match second::lookup(frame, words, register, privilege, access, address) {
        second::Looked::Allowed => Answer::Looked(Verdict::Allowed),
        second::Looked::Fault(cause) => Answer::fault(cause),
        second::Looked::Refused(number) => Answer::refused(number),
    }
}

fn check_slots(before: &[u64; 8], after: &[u64; 8], written: Option<(u64, u64)>) {
    let mut wanted = *before;
    if let Some((slot, register)) = written {
        wanted[slot as usize] = register;
    }
    assert_eq!(after, &wanted, "second: slots after an answer that says otherwise");
}

fn privilege_of(code: u64) -> Option<second::Privilege> {
    match code {
        0 => Some(second::Privilege::User),
        1 => Some(second::Privilege::Supervisor),
        3 => Some(second::Privilege::Machine),
        _ => None,
    }
}

fn strength_of(code: u64) -> Option<second::Strength> {
    match code {
        0 => Some(second::Strength::Sharing),
        1 => Some(second::Strength::Strict),
        _ => None,
    }
}

fn access_of(code: u64) -> Option<second::Access> {
    use second::{Original, Role};
    let role = *[Role::Itself, Role::PageTableRead, Role::Update].get(code as usize / 3)?;
    let original = [Original::Fetch, Original::Load, Original::Store][code as usize % 3];
    Some(second::Access { original, role })
}

fn second_separation(separation: second::Separation) -> Answer {
    let slot = |number: usize| Slot(number as u64);
    Answer::Tested(match separation {
        second::Separation::Apart => Separation::Apart,
        second::Separation::Table { page, slot: one, written } => {
            Separation::TableOpen { page: PageNumber(page), slot: slot(one), written }
        }
        second::Separation::Shared { page, slots: [one, other], written } => {
            Separation::PageShared { page: PageNumber(page), slot: slot(one), other: slot(other), written }
        }
    })
}

fn second_fence(fence: second::Fence) -> mpt_monitor::Fence {
    match fence {
        second::Fence::None => mpt_monitor::Fence::None,
        second::Fence::Domain(sdid) => mpt_monitor::Fence::Domain(Sdid(sdid)),
        second::Fence::Address { address, sdid } => mpt_monitor::Fence::Address(Address(address), Sdid(sdid)),
    }
}
