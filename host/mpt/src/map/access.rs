//! What a domain may do, as a program's lookups say it.

use super::range::{push, Range};
use crate::programs::Program;
use mpt_monitor::{Access, Address, Kind, Permission, Privilege, Register, Table, Verdict};

pub const PAGE_BYTES: u64 = 4096;
/// Pages in a block of 32 MiB, and bytes.
pub const BLOCK_PAGES: u64 = 8192;
pub const BLOCK_BYTES: u64 = BLOCK_PAGES * PAGE_BYTES;

/// Asks a program about a register's domain.
#[derive(Clone, Copy)]
pub struct Lookups<'a> {
    pub program: Program,
    pub table: &'a Table,
    pub register: Register,
}

impl Lookups<'_> {
    fn allowed(&self, access: Access, address: u64) -> bool {
        let (monitor, kind) = (self.program.monitor(), Kind::Itself(access));
        let answer = monitor.lookup(self.table, self.register, Privilege::Supervisor, kind, Address(address));
        answer == Ok(Verdict::Allowed)
    }

    /// The least permission that allows what the lookups of a load, a store and a fetch allow.
    pub fn page(&self, address: u64) -> Permission {
        match Access::ALL.map(|access| self.allowed(access, address)) {
            [true, _, true] => Permission::Rwx,
            [false, _, true] => Permission::Rw,
            [true, _, false] | [false, true, false] => Permission::Rx,
            [false, false, false] => Permission::None,
        }
    }

    /// The permissions of a block, none left out. An entry or a field of it speaks for `span` pages at
    /// a time: the first and the last of them are asked about, and all if those differ.
    pub fn block(&self, number: usize, span: u64) -> Vec<Range<Permission>> {
        let mut ranges = Vec::new();
        let (block, step) = (number as u64 * BLOCK_BYTES, span * PAGE_BYTES);
        for start in (block..block + BLOCK_BYTES).step_by(step as usize) {
            let (end, what) = (start + step, self.page(start));
            if span == 1 || self.page(end - PAGE_BYTES) == what {
                push(&mut ranges, Range { start, end, what });
            } else {
                self.each_page(start, end, &mut ranges);
            }
        }
        ranges
    }

    /// Every page by lookups of its own.
    pub fn each_page(&self, start: u64, end: u64, ranges: &mut Vec<Range<Permission>>) {
        for start in (start..end).step_by(PAGE_BYTES as usize) {
            push(ranges, Range { start, end: start + PAGE_BYTES, what: self.page(start) });
        }
    }
}
