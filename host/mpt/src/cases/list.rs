//! The cases themselves: what is asked, and the papers' answers.

use crate::answer::{Free, Reply};
use mpt_monitor::{
    Address, Answer, Cause, Edited, Fence, PageNumber, Refusal, Register, Sdid, Separation, Slot, Verdict,
};

/// A case: the memory it begins with, and its questions.
pub struct Case {
    pub name: &'static str,
    pub pages: usize,
    pub steps: &'static [Step],
}

/// What is asked, in the language of `mpt run`, and the paper's answer.
pub type Step = (&'static str, Paper);

/// What the papers answer.
#[derive(Clone, Copy, Debug)]
pub enum Paper {
    Call(Answer),
    /// So many times this word.
    Words(usize, u64),
    Free(usize),
    /// A word was written past the monitor.
    Done,
}

impl Paper {
    pub fn reply(self) -> Reply {
        match self {
            Paper::Call(answer) => Reply::Call(answer),
            Paper::Words(count, word) => Reply::Words(vec![word; count]),
            Paper::Free(count) => Reply::Free(Free::Pages(count)),
            Paper::Done => Reply::Done,
        }
    }
}

/// The register of the new domain, which every lookup is made with.
pub const OPENED: Register = Register(0x1140_0000_0008_0000);
const ALLOWED: Paper = Paper::Call(Answer::Looked(Verdict::Allowed));

const fn fault(cause: Cause) -> Paper {
    Paper::Call(Answer::Looked(Verdict::Fault(cause)))
}

const fn refused(refusal: Refusal) -> Paper {
    Paper::Call(Answer::Refused(refusal))
}

const fn opens(register: u64) -> Paper {
    Paper::Call(Answer::Opened(Register(register)))
}

/// All stores made, and a fence of domain 5.
const fn all(stores: u64) -> Paper {
    edited(stores, true, Fence::Domain(Sdid(5)))
}

/// Cut, and a fence of domain 5.
const fn part(stores: u64) -> Paper {
    edited(stores, false, Fence::Domain(Sdid(5)))
}

const fn edited(stores: u64, all: bool, fence: Fence) -> Paper {
    Paper::Call(Answer::Edited(Edited { stores, all, fence }))
}

const APART: Paper = Paper::Call(Answer::Tested(Separation::Apart));

/// A table page, by its address, that a slot reaches.
const fn table(address: u64, slot: u64, written: bool) -> Paper {
    let (page, slot) = (PageNumber(address / 4096), Slot(slot));
    Paper::Call(Answer::Tested(Separation::TableOpen { page, slot, written }))
}

/// A page, by its address, that two slots share.
const fn shared(address: u64, slot: u64, other: u64, written: bool) -> Paper {
    let (page, slot, other) = (PageNumber(address / 4096), Slot(slot), Slot(other));
    Paper::Call(Answer::Tested(Separation::PageShared { page, slot, other, written }))
}

/// "PAW 32, 16 pages from page 0x80000, slot 0 opened with SDID 5", and then the case. In `look`
/// stands the domain's register and S mode. Words 0 to 511 are the root, from 512 the next page.
pub const CASES: [Case; 15] = [
    Case { name: "A", pages: 16, steps: &[("look load 0x40000000", fault(Cause::Load))] },
    Case {
        name: "B",
        pages: 16,
        steps: &[
            // pn[2] 32, pn[1] 18, pn[0] 3: entry 32, L1 entry 18, field 3
            ("edit 0 0x40123000 0x1000 rw 1536", all(544)),
            ("peek 32", Paper::Words(1, 0x0000_4000_0008_0001)),
            ("peek 530", Paper::Words(1, 0x0000_0000_0000_2000)),
            ("look load 0x40123456", ALLOWED),
        ],
    },
    Case {
        name: "C",
        pages: 16,
        steps: &[
            ("edit 0 0x40000000 0x1000 rw 1536", all(544)),
            ("peek 32", Paper::Words(1, 0x0000_4000_0008_0001)),
            ("peek 33 31", Paper::Words(31, 0x0000_6000_0000_0000)),
        ],
    },
    Case {
        name: "D",
        pages: 16,
        steps: &[
            ("edit 0 0x40000000 0x1000 rw 512", part(512)),
            ("look load 0x40000000", fault(Cause::Load)),
            ("edit 0 0x40000000 0x1000 rw 513", part(513)),
            ("look load 0x40000000", ALLOWED),
            ("look load 0x40001000", fault(Cause::Load)),
            ("edit 0 0x40000000 0x1000 rw 1536", all(31)),
        ],
    },
    Case {
        name: "E",
        pages: 16,
        steps: &[
            ("edit 0 0x40000000 0x1000 rw 1536", all(544)),
            ("look store 0x40000FFF", ALLOWED),
            ("look fetch 0x40000FFF", fault(Cause::Fetch)),
            ("look walk-store 0x40001000", fault(Cause::Store)),
        ],
    },
    Case {
        name: "F",
        pages: 16,
        steps: &[
            ("edit 0 0x40000000 0x1000 rw 1536", all(544)),
            ("peek 512", Paper::Words(1, 0x0000_0000_0000_0002)),
            ("edit 0 0x40003000 0x1000 rx 1536", edited(1, true, Fence::Address(Address(0x4000_3000), Sdid(5)))),
            ("peek 512", Paper::Words(1, 0x0000_0000_0000_1002)),
        ],
    },
    Case {
        name: "G",
        pages: 16,
        steps: &[
            ("edit 0 0x40000000 0x1000 rw 1536", all(544)),
            ("edit 0 0x40000000 0x40000000 rw 1536", all(32)),
            ("peek 32 32", Paper::Words(32, 0x0000_2000_0000_0000)),
            ("free", Paper::Free(15)),
        ],
    },
    Case {
        name: "H",
        pages: 16,
        steps: &[
            ("edit 0 0x40000000 0x1000 rw 1536", all(544)),
            ("edit 0 0x40000000 0x40000000 rw 1536", all(32)),
            ("edit 0 0x40200000 0x200000 none 1536", all(32)),
            ("peek 32", Paper::Words(1, 0x0000_6000_AAAA_AAA2)),
        ],
    },
    Case {
        name: "I",
        pages: 16,
        steps: &[
            ("edit 0 0xFFFFF000 0x2000 rw 1536", refused(Refusal::BadRange)),
            ("edit 0 0xFFFFF000 0x1000 rw 1536", all(544)),
            ("look load 0x100000000", fault(Cause::Load)),
        ],
    },
    Case {
        name: "J",
        pages: 16,
        steps: &[
            ("edit 0 0x8000F000 0x1000 rw 1536", refused(Refusal::MeetsLent)),
            ("edit 0 0x8000F000 0x1000 none 1536", edited(0, true, Fence::None)),
            ("edit 0 0x80010000 0x1000 rw 1536", all(544)),
        ],
    },
    Case {
        name: "K",
        pages: 2,
        steps: &[
            ("edit 0 0x40000000 0x1000 rw 1536", all(544)),
            ("edit 0 0x42000000 0x1000 rw 1536", refused(Refusal::NoFreePage)),
            ("edit 0 0x40000000 0x1000 none 1536", all(32)),
            ("edit 0 0x42000000 0x1000 rw 1536", all(544)),
        ],
    },
    // document 02, item 3: "L1 entry 0x4000000000000002, load of its page 0, fault 5". Our own beside it: its page 15, which
    // has the bit; page 0 of an entry without one; page 15 with the bit and rw; page 15 with the bit in field 0
    Case {
        name: "V",
        pages: 16,
        steps: &[
            ("poke 32 0x0000400000080001", Paper::Done),
            ("poke 512 0x4000000000000002", Paper::Done),
            ("poke 513 0x0000000000000002", Paper::Done),
            ("poke 514 0x6000000000000000", Paper::Done),
            ("poke 515 0x2000000000000004", Paper::Done),
            ("look load 0x40000000", fault(Cause::Load)),
            ("look load 0x4000F000", fault(Cause::Load)),
            ("look load 0x40010000", ALLOWED),
            ("look load 0x4002F000", fault(Cause::Load)),
            ("look store 0x4003F000", fault(Cause::Store)),
            ("close 0", refused(Refusal::NotSound)),
        ],
    },
    // document 02, item 6: no rwx in slots 1 to 7, "tested after 5 and before 6. Slot 0 keeps it."
    Case {
        name: "W",
        pages: 16,
        steps: &[
            ("open 1 0", opens(0x1000_0000_0008_0001)),
            ("open 7 6", opens(0x1180_0000_0008_0002)),
            ("edit 1 0x40000000 0x1000 rwx 1536", refused(Refusal::NoWriteExecute)),
            ("edit 7 0x40000000 0x1000 rwx 1536", refused(Refusal::NoWriteExecute)),
            ("edit 2 0x40000000 0x1000 rwx 1536", refused(Refusal::BadSlot)),
            ("edit 1 0x8000F000 0x800 rwx 1536", refused(Refusal::BadRange)),
            ("edit 1 0x8000F000 0x1000 rwx 1536", refused(Refusal::NoWriteExecute)),
            ("edit 0 0x8000F000 0x1000 rwx 1536", refused(Refusal::MeetsLent)),
            ("edit 0 0x40000000 0x1000 rwx 1536", all(544)),
            ("look fetch 0x40000000", ALLOWED),
            ("look store 0x40000000", ALLOWED),
            ("edit 1 0x40000000 0x1000 none 1536", edited(0, true, Fence::None)),
            ("edit 1 0x40000000 0x1000 rx 1536", edited(544, true, Fence::Domain(Sdid(0)))),
            ("edit 1 0x40000000 0x1000 rw 1536", edited(1, true, Fence::Address(Address(0x4000_0000), Sdid(0)))),
            // "Pages already rwx stay so until edited": block 96 of slot 1, from before, and one page of it edited
            ("poke 608 0x0000300000000000", Paper::Done),
            ("sound", Paper::Call(Answer::Sound)),
            ("edit 1 0xC0000000 0x1000 rwx 1536", refused(Refusal::NoWriteExecute)),
            ("edit 1 0xC0000000 0x1000 rx 1536", edited(544, true, Fence::Domain(Sdid(0)))),
            ("peek 2560", Paper::Words(1, 0x3333_3333_3333_3331)),
            ("peek 2561 511", Paper::Words(511, 0x3333_3333_3333_3333)),
            // page 0xC0001000 of the range is rwx already
            ("edit 1 0xC0000000 0x2000 rwx 1536", refused(Refusal::NoWriteExecute)),
        ],
    },
    // document 02, item 13: "no page open to two domains"; and the weaker test, by which domains may share what none may write
    Case {
        name: "X",
        pages: 16,
        steps: &[
            ("open 1 6", opens(0x1180_0000_0008_0001)),
            ("open 7 0", opens(0x1000_0000_0008_0002)),
            ("apart strict", APART),
            // a page rw to one and none to the rest
            ("edit 0 0x40000000 0x1000 rw 1536", all(544)),
            ("apart", APART),
            ("apart strict", APART),
            // a page rw to one and rx to another, which is neither the next slot nor the next SDID
            ("edit 7 0x40000000 0x1000 rx 1536", edited(544, true, Fence::Domain(Sdid(0)))),
            ("apart", shared(0x4000_0000, 0, 7, true)),
            ("apart strict", shared(0x4000_0000, 0, 7, true)),
            // program code, 2 MiB rx to all, below that page
            ("edit 0 0x10000000 0x200000 rx 1536", all(32)),
            ("edit 1 0x10000000 0x200000 rx 1536", edited(32, true, Fence::Domain(Sdid(6)))),
            ("edit 7 0x10000000 0x200000 rx 1536", edited(32, true, Fence::Domain(Sdid(0)))),
            ("apart", shared(0x4000_0000, 0, 7, true)),
            ("apart strict", shared(0x1000_0000, 0, 1, false)),
            ("edit 7 0x40000000 0x1000 none 1536", edited(32, true, Fence::Domain(Sdid(0)))),
            ("apart", APART),
            ("apart strict", shared(0x1000_0000, 0, 1, false)),
            // the code rw to slot 7: slots 0 and 1 only read it, so that the lowest pair at fault is 0 and 7
            ("edit 7 0x10000000 0x200000 rw 1536", edited(1, true, Fence::Domain(Sdid(0)))),
            ("apart", shared(0x1000_0000, 0, 7, true)),
            ("edit 7 0x10000000 0x200000 rx 1536", edited(1, true, Fence::Domain(Sdid(0)))),
            // the last page of the address space, rw to two, and then rx
            ("edit 1 0xFFFFF000 0x1000 rw 1536", edited(544, true, Fence::Domain(Sdid(6)))),
            ("apart", APART),
            ("edit 7 0xFFFFF000 0x1000 rw 1536", edited(544, true, Fence::Domain(Sdid(0)))),
            ("apart", shared(0xFFFF_F000, 1, 7, true)),
            ("edit 7 0xFFFFF000 0x1000 rx 1536", edited(1, true, Fence::Address(Address(0xFFFF_F000), Sdid(0)))),
            ("apart", shared(0xFFFF_F000, 1, 7, true)),
            ("edit 1 0xFFFFF000 0x1000 rx 1536", edited(1, true, Fence::Address(Address(0xFFFF_F000), Sdid(6)))),
            ("apart", APART),
        ],
    },
    // "no table page open to any", by words that no edit writes. Block 64 begins at 0x80000000: the lent pages are the first 16 of
    // its piece 0. Roots are pages 0x80000 and 0x80001; word 64 is slot 0's entry of that block, and word 576 slot 1's
    Case {
        name: "Y",
        pages: 16,
        steps: &[
            ("open 1 6", opens(0x1180_0000_0008_0001)),
            ("poke 64 0x0000600000000002", Paper::Done),
            ("apart", table(0x8000_0000, 0, true)),
            ("poke 64 0x0000600000000001", Paper::Done),
            ("apart", APART),
            ("apart strict", table(0x8000_0000, 0, false)),
            // slot 0's block by the L1 page 0x80002: a lent page that is free, the L1 page itself, and slot 1's root
            ("poke 64 0x0000400000080002", Paper::Done),
            ("poke 1024 0x0000000000002000", Paper::Done),
            ("apart", APART),
            ("apart strict", APART),
            ("poke 1024 0x0000000000000200", Paper::Done),
            ("apart", table(0x8000_2000, 0, true)),
            ("poke 1024 0x0000000000000020", Paper::Done),
            ("apart", table(0x8000_1000, 0, true)),
            // the same page rx to slot 1 too: at fault in both ways
            ("poke 576 0x0000600000000001", Paper::Done),
            ("apart", table(0x8000_1000, 0, true)),
            ("apart strict", table(0x8000_0000, 1, false)),
            // a free lent page that both have
            ("poke 1024 0x0000000000002000", Paper::Done),
            ("apart", shared(0x8000_3000, 0, 1, true)),
            // two slots with one register
            ("slot 7 0x1140000000080000", Paper::Done),
            ("apart", refused(Refusal::NotSound)),
            ("apart strict", refused(Refusal::NotSound)),
            ("frame 29 0x80000 16", Paper::Done),
            ("apart", refused(Refusal::BadFrame)),
        ],
    },
];
