//! The calls, with types in place of numbers.

use crate::answer::{Answer, Edited, Fence, Refusal, Separation, Verdict};
use crate::call::{Call, Edit, Reading};
use crate::interface::Interface;
use crate::table::Memory;
use crate::types::{Address, Kind, Privilege, Register, Sdid, Slot, Strength};

/// Makes the calls of document 01 on memory that is lent to it.
#[derive(Clone, Copy, Debug)]
pub struct Monitor<I>(I);

#[cfg(feature = "proved")]
impl Monitor<crate::Proved> {
    /// The monitor by the proved library.
    pub fn proved() -> Self {
        Monitor(crate::Proved)
    }
}

impl<I: Interface> Monitor<I> {
    /// A monitor by another program behind the same interface.
    pub fn over(interface: I) -> Self {
        Monitor(interface)
    }

    /// Any call with any numbers. After an open and a close, writes the slot.
    #[inline]
    pub fn call(&self, table: &mut impl Memory, call: Call) -> Answer {
        let answer = match call {
            Call::Reading(call) => self.0.read(table.view(), call),
            Call::Writing(call) => self.0.write(table.view_mut(), call),
        };
        if let Some((slot, register)) = call.slot_after(answer) {
            table.set_slot(slot, register);
        }
        answer
    }

    /// May an access of this kind reach the address under this register? Zero is Bare, which allows every access:
    /// right for a register that holds zero, and wrong for an empty slot, which holds zero too. Of a slot ask
    /// [`lookup_slot`](Self::lookup_slot). Outside M mode and Bare it reads one L2 entry and at most one L1 entry, and
    /// faults where the L2 entry breaks its rules, where a page to be read is not lent, or where a reserved bit is set
    /// in any of the L1 entry's 16 fields. It is no check of the table: it does not see that a page is named twice,
    /// say. [`sound`](Self::sound) does, and so do open, close and edit.
    #[inline]
    pub fn lookup(
        &self,
        table: &impl Memory,
        register: Register,
        privilege: Privilege,
        kind: Kind,
        address: Address,
    ) -> Result<Verdict, Refusal> {
        let call = Reading::Lookup { register, privilege: privilege.code(), kind: kind.code(), address };
        match self.0.read(table.view(), call) {
            Answer::Looked(verdict) => Ok(verdict),
            other => refused(other),
        }
    }

    /// May an access of this kind reach the address in the domain of a slot? As [`lookup`](Self::lookup) under the
    /// register in the slot, but a slot that is empty or above 7 is refused ([`Refusal::BadSlot`]), and so, as a
    /// register, is anything else of MODE 0, which no open gave: no slot means Bare.
    #[inline]
    pub fn lookup_slot(
        &self,
        table: &impl Memory,
        slot: Slot,
        privilege: Privilege,
        kind: Kind,
        address: Address,
    ) -> Result<Verdict, Refusal> {
        let held = table.register(slot);
        let register = held.filter(|register| register.mode() != 0).unwrap_or(Register::NONE);
        match self.lookup(table, register, privilege, kind, address) {
            Err(Refusal::BadRegister) if held.is_none() => Err(Refusal::BadSlot),
            answer => answer,
        }
    }

    /// Opens an empty slot for a domain; answers its register, which then stands in the slot.
    #[inline]
    pub fn open(&self, table: &mut impl Memory, slot: Slot, sdid: Sdid) -> Result<Register, Refusal> {
        match self.call(table, Call::open(slot, sdid)) {
            Answer::Opened(register) => Ok(register),
            other => refused(other),
        }
    }

    /// Empties a slot. The fence comes before the SDID is used again.
    #[inline]
    pub fn close(&self, table: &mut impl Memory, slot: Slot) -> Result<Fence, Refusal> {
        match self.call(table, Call::close(slot)) {
            Answer::Closed(fence) => Ok(fence),
            other => refused(other),
        }
    }

    /// Gives a range one permission, by the first stores of the list up to the limit.
    #[inline]
    pub fn edit(&self, table: &mut impl Memory, edit: Edit) -> Result<Edited, Refusal> {
        match self.call(table, Call::edit(edit)) {
            Answer::Edited(edited) => Ok(edited),
            other => refused(other),
        }
    }

    /// Refused as an edit would be for a bad frame or a table that is not sound; else fine.
    #[inline]
    pub fn sound(&self, table: &impl Memory) -> Result<(), Refusal> {
        match self.0.read(table.view(), Reading::Sound) {
            Answer::Sound => Ok(()),
            other => refused(other),
        }
    }

    /// Are the domains kept apart? Where they are, what a domain loads is what it would load if it were alone on the board,
    /// whatever the others do, as long as the table stays as it is and only domains store, each through its walk. So it is
    /// asked after the last open, close or edit and its fence, and again after any other, or after anything else wrote the
    /// table or the slots: an open may take a free lent page that is open to a domain.
    /// Refused as [`sound`](Self::sound) is.
    #[inline]
    pub fn apart(&self, table: &impl Memory, strength: Strength) -> Result<Separation, Refusal> {
        match self.0.read(table.view(), Reading::Apart { strength: strength.code() }) {
            Answer::Tested(separation) => Ok(separation),
            other => refused(other),
        }
    }
}

/// The refusal in an answer that is no other. The types here pass no code that names nothing, so any
/// other answer is that of a library of another interface.
fn refused<T>(answer: Answer) -> Result<T, Refusal> {
    match answer {
        Answer::Refused(refusal) => Err(refusal),
        other => panic!("the library answered {other:?}, which mpt.h does not name for this call"),
    }
}
