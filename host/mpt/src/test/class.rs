//! The classes of things that a run can meet. Each stands in a table of the summary, by its row and
//! column, and `Class::demanded` lists those that a long run must meet.

use super::bounds::{AddressBound, FrameBound, RangeBound};
use super::forms::Change;
use super::layout::GIB_BLOCKS;
use super::reserved::Reserved;
use super::rules::Rule;
use super::segments::Segment;
use super::separation::Separated;
use super::sweep::Target;
use super::write_execute::WriteExecute;
use mpt_monitor::{Answer, Call, Edited, Fence, Reading, Separation, Verdict, Writing};

#[derive(Clone, Copy, Debug, PartialEq, Eq, PartialOrd, Ord)]
pub enum Class {
    /// A call and what it answered.
    Answer(Asked, Given),
    /// An argument outside its kind, answered as such.
    Outside(&'static str),
    /// Where a frame, a lookup's address or an edit's range lies beside a bound.
    Frame(FrameBound),
    Address(AddressBound),
    Range(RangeBound),
    /// A block before and after a whole edit.
    Block(Change),
    /// Where an edit was cut.
    Cut(Segment),
    /// An entry, a register or an address that differs from a good one in this bit.
    Bit(Target, u8),
    /// One entry differs in a bit from the 1G type that it was, at this place of a GiB whose other entries are of 1G types.
    AmongFlat(usize),
    /// Reserved bits of an L1 entry are set, and an access by it or beside it.
    Reserved(Reserved),
    /// Write and execute together: asked for, or there from before.
    WriteExecute(WriteExecute),
    /// Domains that are kept apart or not.
    Separated(Separated),
    /// A table that is not sound by this rule alone.
    Unsound(Rule),
    /// A sound table: its PAW, its open slots, its pages in use and free, each by a range of numbers.
    Paw(u64),
    Domains(u64),
    InUse(usize),
    Free(usize),
    /// The new page of a call lies in this quarter of 256.
    NewPage(Asked, usize),
}

#[derive(Clone, Copy, Debug, PartialEq, Eq, PartialOrd, Ord)]
pub enum Asked {
    Lookup,
    Open,
    Close,
    Edit,
    Sound,
    Apart,
}

/// An answer without its numbers, except those of refusals and faults.
#[derive(Clone, Copy, Debug, PartialEq, Eq, PartialOrd, Ord)]
pub enum Given {
    Refused(u64),
    Allowed,
    Fault(u64),
    Opened,
    Closed,
    Edited {
        all: bool,
        fence: FenceKind,
    },
    Sound,
    Apart,
    NotApart,
    /// A word that has no meaning: no class that is demanded.
    Other,
}

#[derive(Clone, Copy, Debug, PartialEq, Eq, PartialOrd, Ord)]
pub enum FenceKind {
    None,
    Address,
    Domain,
}

/// Where each range of `InUse` and `Free` begins, and its name.
const IN_USE: [(usize, &str); 8] =
    [(0, "0"), (1, "1"), (2, "2-63"), (64, "64"), (65, "65-127"), (128, "128"), (129, "129-255"), (256, "256")];
const FREE: [(usize, &str); 4] = [(0, "0"), (1, "1"), (2, "2"), (3, "more")];
const QUARTERS: [&str; 4] = ["page 0-63", "64-127", "128-191", "192-255"];
const OUTSIDE: [&str; 4] = ["privilege", "kind", "permission", "strength"];

fn nth_range(ranges: &[(usize, &str)], number: usize) -> usize {
    ranges.iter().rposition(|(from, _)| *from <= number).expect("the first range begins at 0")
}

impl Class {
    pub fn of_answer(call: Call, answer: Answer) -> Class {
        Class::Answer(Asked::of(call), Given::of(answer))
    }

    pub fn in_use(pages: usize) -> Class {
        Class::InUse(nth_range(&IN_USE, pages))
    }

    pub fn free(pages: usize) -> Class {
        Class::Free(nth_range(&FREE, pages))
    }

    pub fn new_page(asked: Asked, nth: usize) -> Class {
        Class::NewPage(asked, nth / 64)
    }

    /// Every class that a long run must meet, in the order of the summary.
    pub fn demanded() -> Vec<Class> {
        let mut all: Vec<Class> = demanded_answers().map(|(asked, given)| Class::Answer(asked, given)).collect();
        all.extend(OUTSIDE.map(Class::Outside));
        all.extend(FrameBound::all().map(Class::Frame));
        all.extend((30..=34).map(Class::Paw));
        all.extend((0..=8).map(Class::Domains));
        all.extend((0..IN_USE.len()).map(Class::InUse));
        all.extend((0..FREE.len()).map(Class::Free));
        all.extend(
            [Asked::Open, Asked::Edit].into_iter().flat_map(|asked| (0..4).map(move |n| Class::NewPage(asked, n))),
        );
        all.extend(AddressBound::all().map(Class::Address));
        all.extend(RangeBound::all().map(Class::Range));
        all.extend(Rule::ALL.map(Class::Unsound));
        all.extend(Target::ALL.into_iter().flat_map(|target| (0..64).map(move |bit| Class::Bit(target, bit))));
        all.extend((0..GIB_BLOCKS).map(Class::AmongFlat));
        all.extend(Reserved::all().map(Class::Reserved));
        all.extend(WriteExecute::all().map(Class::WriteExecute));
        all.extend(Separated::all().map(Class::Separated));
        all.extend(Change::all().map(Class::Block));
        all.extend(Segment::all().map(Class::Cut));
        all
    }

    /// The table of the summary, the row and the column.
    pub fn place(self) -> (&'static str, String, String) {
        let own = |row: &str, column: String| (row.to_string(), column);
        let (table, (row, column)) = match self {
            Class::Answer(asked, given) => return given.place(asked),
            Class::Reserved(met) => return met.place(),
            Class::WriteExecute(met) => return met.place(),
            Class::Separated(met) => return met.place(),
            Class::Outside(what) => ("answers", own("outside its kind", what.to_string())),
            Class::Frame(bound) => ("frames", bound.place()),
            Class::Paw(paw) => ("sound tables", own("PAW", paw.to_string())),
            Class::Domains(count) => ("open slots", own("", count.to_string())),
            Class::InUse(nth) => ("pages in use", own("", IN_USE[nth].1.to_string())),
            Class::Free(nth) => ("pages free", own("", FREE[nth].1.to_string())),
            Class::NewPage(asked, nth) => ("new pages", own(asked.name(), QUARTERS[nth].to_string())),
            Class::Address(bound) => ("addresses looked up", bound.place()),
            Class::Range(bound) => ("ranges edited", bound.place()),
            Class::Unsound(rule) => ("not sound, by one rule", own(rule.name(), String::new())),
            Class::Bit(target, bit) => {
                let quarter = bit / 16 * 16;
                ("one bit changed", own(target.name(), format!("bits {quarter}-{}", quarter + 15)))
            }
            Class::AmongFlat(nth) => {
                let quarter = nth / 8 * 8;
                ("one bit changed in a GiB of 1G types", own("", format!("entries {quarter}-{}", quarter + 7)))
            }
            Class::Block(change) => ("blocks before and after an edit", change.place()),
            Class::Cut(segment) => ("cuts, between the last store made and the next", segment.place()),
        };
        (table, row, column)
    }
}

/// "Given exactly when", by call.
fn demanded_answers() -> impl Iterator<Item = (Asked, Given)> {
    let refused = |asked, numbers: &'static [u64]| numbers.iter().map(move |&number| (asked, Given::Refused(number)));
    let edited = |all, fence| (Asked::Edit, Given::Edited { all, fence });
    refused(Asked::Lookup, &[1, 2])
        .chain(refused(Asked::Open, &[1, 3, 4, 7, 8]))
        .chain(refused(Asked::Close, &[1, 3, 4]))
        .chain(refused(Asked::Edit, &[1, 3, 4, 5, 6, 7, 10]))
        .chain(refused(Asked::Sound, &[1, 3]))
        .chain(refused(Asked::Apart, &[1, 3]))
        .chain([(Asked::Lookup, Given::Allowed)])
        .chain([1, 5, 7].map(|cause| (Asked::Lookup, Given::Fault(cause))))
        .chain([(Asked::Open, Given::Opened), (Asked::Close, Given::Closed), (Asked::Sound, Given::Sound)])
        .chain([Given::Apart, Given::NotApart].map(|given| (Asked::Apart, given)))
        .chain([FenceKind::None, FenceKind::Address, FenceKind::Domain].map(|fence| edited(true, fence)))
        .chain([FenceKind::None, FenceKind::Domain].map(|fence| edited(false, fence)))
}

impl Asked {
    pub fn of(call: Call) -> Asked {
        match call {
            Call::Reading(Reading::Lookup { .. }) => Asked::Lookup,
            Call::Reading(Reading::Close { .. }) => Asked::Close,
            Call::Reading(Reading::Sound) => Asked::Sound,
            Call::Reading(Reading::Apart { .. }) => Asked::Apart,
            Call::Writing(Writing::Open { .. }) => Asked::Open,
            Call::Writing(Writing::Edit { .. }) => Asked::Edit,
        }
    }

    fn name(self) -> &'static str {
        match self {
            Asked::Lookup => "lookup",
            Asked::Open => "open",
            Asked::Close => "close",
            Asked::Edit => "edit",
            Asked::Sound => "sound",
            Asked::Apart => "apart",
        }
    }
}

impl Given {
    pub fn of(answer: Answer) -> Given {
        match answer {
            Answer::Looked(Verdict::Allowed) => Given::Allowed,
            Answer::Looked(Verdict::Fault(cause)) => Given::Fault(cause.number()),
            Answer::Refused(refusal) => Given::Refused(refusal.number()),
            Answer::Opened(_) => Given::Opened,
            Answer::Closed(_) => Given::Closed,
            Answer::Edited(Edited { all, fence, .. }) => Given::Edited { all, fence: FenceKind::of(fence) },
            Answer::Sound => Given::Sound,
            Answer::Tested(Separation::Apart) => Given::Apart,
            Answer::Tested(_) => Given::NotApart,
            Answer::OutsideKind | Answer::Unknown(_) => Given::Other,
        }
    }

    fn place(self, asked: Asked) -> (&'static str, String, String) {
        let (table, row, column) = match self {
            Given::Refused(number) => ("refusals", asked.name(), number.to_string()),
            Given::Edited { all, fence } => {
                ("edits", if all { "all stores" } else { "part" }, format!("fence {}", fence.name()))
            }
            Given::Fault(cause) => ("answers", asked.name(), format!("fault {cause}")),
            Given::Allowed => ("answers", asked.name(), "allowed".to_string()),
            Given::Opened | Given::Closed | Given::Sound => ("answers", asked.name(), "done".to_string()),
            Given::Apart => ("answers", asked.name(), "apart".to_string()),
            Given::NotApart => ("answers", asked.name(), "not apart".to_string()),
            Given::Other => ("answers", asked.name(), "no answer of mpt.h".to_string()),
        };
        (table, row.to_string(), column)
    }
}

impl FenceKind {
    fn of(fence: Fence) -> FenceKind {
        match fence {
            Fence::None => FenceKind::None,
            Fence::Domain(_) => FenceKind::Domain,
            Fence::Address(..) => FenceKind::Address,
        }
    }

    fn name(self) -> &'static str {
        match self {
            FenceKind::None => "none",
            FenceKind::Address => "address",
            FenceKind::Domain => "domain",
        }
    }
}
