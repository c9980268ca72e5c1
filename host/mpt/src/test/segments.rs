//! The store list of an edit by segments: what kind of store stands on each side of a cut.

use super::layout::words_of;
use super::reading::{frame, used_pages};
use mpt_monitor::{Edit, Register, Table, PAGE_WORDS};

/// A store by what it does.
#[derive(Clone, Copy, Debug, PartialEq, Eq, PartialOrd, Ord)]
pub enum Kind {
    /// An entry of a page that no entry names yet.
    New,
    /// The L2 entry that names such a page.
    Link,
    /// An L2 entry that named a page and no longer does.
    Unlink,
    /// Any other L2 entry.
    Flat,
    /// An entry of an L1 page in use.
    L1,
}

/// A cut: the store before it and the store that would be next.
#[derive(Clone, Copy, Debug, PartialEq, Eq, PartialOrd, Ord)]
pub enum Segment {
    /// Before the first store.
    Start(Kind),
    Between(Kind, Kind),
    /// After the last store: the limit is just enough.
    End(Kind),
    /// In or before a new page when a page was unlinked: the next call may take that one instead.
    NewAfterUnlink,
}

const KINDS: [(Kind, &str); 5] = [
    (Kind::New, "in a new page"),
    (Kind::Link, "its link"),
    (Kind::Unlink, "an unlink"),
    (Kind::Flat, "another L2 entry"),
    (Kind::L1, "an L1 entry"),
];

impl Segment {
    pub fn all() -> impl Iterator<Item = Segment> {
        let kinds = || KINDS.into_iter().map(|(kind, _)| kind);
        let pairs = kinds().flat_map(move |last| kinds().map(move |next| Segment::Between(last, next)));
        let starts = kinds().filter(|kind| *kind != Kind::Link).map(Segment::Start);
        let ends = kinds().filter(|kind| *kind != Kind::New).map(Segment::End);
        starts.chain(pairs.filter(Segment::can_be)).chain(ends).chain([Segment::NewAfterUnlink])
    }

    /// A link comes after the 512 entries of its page, and nothing else does.
    fn can_be(&self) -> bool {
        match *self {
            Segment::Between(Kind::New, next) => matches!(next, Kind::New | Kind::Link),
            Segment::Between(_, next) => next != Kind::Link,
            _ => true,
        }
    }

    /// Where two different things meet and few lists have them.
    pub fn is_rare(self) -> bool {
        match self {
            Segment::Between(Kind::New, _) => false,
            Segment::Between(last, next) => last != next && last != Kind::Flat && next != Kind::Flat,
            Segment::NewAfterUnlink => true,
            Segment::Start(_) | Segment::End(_) => false,
        }
    }

    pub fn place(self) -> (String, String) {
        let name = |kind: Kind| KINDS[kind as usize].1;
        let (row, column) = match self {
            Segment::Start(next) => ("no store", name(next)),
            Segment::Between(last, next) => (name(last), name(next)),
            Segment::End(last) => (name(last), "none"),
            Segment::NewAfterUnlink => ("one of them an unlink", "in a new page"),
        };
        (row.to_string(), column.to_string())
    }
}

/// The kinds of an edit's stores, in order, as the table stands; nothing if it is refused.
pub fn kinds(table: &Table, edit: Edit) -> Option<Vec<Kind>> {
    let Edit { slot, start, length, permission, .. } = edit;
    let asked = second::Asked { slot: slot.0, start: start.0, length, permission: permission.code() as u8 };
    let list = second::store_list(frame(table), table.words(), table.slots(), asked).ok()?;
    let root = words_of(table, Register(table.slots()[slot.0 as usize]).root().0)?;
    let used = used_pages(table)?;
    let first = table.frame().first.0;
    let kind = |store: &second::Store| {
        if root.contains(&store.index) {
            return match (table.words()[store.index] >> 44, store.word >> 44) {
                (4, _) => Kind::Unlink,
                (_, 4) => Kind::Link,
                _ => Kind::Flat,
            };
        }
        match used.contains(&(first + (store.index / PAGE_WORDS) as u64)) {
            true => Kind::L1,
            false => Kind::New,
        }
    };
    Some(list.iter().map(kind).collect())
}

/// The segments that a cut after so many stores lies in.
pub fn segments(kinds: &[Kind], at: usize) -> Vec<Segment> {
    let mut all = Vec::new();
    match (at.checked_sub(1).map(|last| kinds[last]), kinds.get(at).copied()) {
        (None, Some(next)) => all.push(Segment::Start(next)),
        (Some(last), Some(next)) => all.push(Segment::Between(last, next)),
        (Some(last), None) => all.push(Segment::End(last)),
        (None, None) => {}
    }
    if kinds[..at].contains(&Kind::Unlink) && kinds.get(at) == Some(&Kind::New) {
        all.push(Segment::NewAfterUnlink);
    }
    all
}

/// Every segment of a list, with the numbers of stores that cut it there.
pub fn places(kinds: &[Kind]) -> Vec<(Segment, Vec<usize>)> {
    let mut all: Vec<(Segment, Vec<usize>)> = Vec::new();
    for at in 0..=kinds.len() {
        for segment in segments(kinds, at) {
            match all.iter_mut().find(|(known, _)| *known == segment) {
                Some((_, places)) => places.push(at),
                None => all.push((segment, vec![at])),
            }
        }
    }
    all
}

#[cfg(test)]
mod tests {
    use super::*;
    use crate::programs::SECOND;
    use mpt_monitor::{Address, Frame, PageNumber, Permission, Sdid, Slot};

    fn edit(start: u64, length: u64) -> Edit {
        Edit { slot: Slot(0), start: Address(start), length, permission: Permission::Rw, limit: u64::MAX }
    }

    #[test]
    fn the_lists_of_case_c_and_of_one_that_unlinks() {
        let mut table = Table::new(Frame { paw: 32, first: PageNumber(0x80000) }, 16);
        SECOND.monitor().open(&mut table, Slot(0), Sdid(5)).unwrap();
        let c = edit(0x4000_0000, 0x1000);
        let list = kinds(&table, c).unwrap();
        assert_eq!(list.len(), 544);
        assert!(
            list[..512].iter().all(|kind| *kind == Kind::New) && list[513..].iter().all(|kind| *kind == Kind::Flat)
        );
        assert_eq!(segments(&list, 512), [Segment::Between(Kind::New, Kind::Link)]);
        assert_eq!(segments(&list, 544), [Segment::End(Kind::Flat)]);
        assert!(SECOND.monitor().edit(&mut table, c).unwrap().all);
        // the first block of GiB 1 is whole, and a page of the next is new
        let list = kinds(&table, edit(0x4000_0000, 0x200_1000)).unwrap();
        assert_eq!((list[0], list[1], list.len()), (Kind::Unlink, Kind::New, 514));
        assert_eq!(segments(&list, 1), [Segment::Between(Kind::Unlink, Kind::New), Segment::NewAfterUnlink]);
        assert_eq!(segments(&list, 300), [Segment::Between(Kind::New, Kind::New), Segment::NewAfterUnlink]);
        assert_eq!(kinds(&table, edit(0x4000_1000, 0x1000)).unwrap(), [Kind::L1]);
        assert_eq!(segments(&[], 0), []);
        assert_eq!(kinds(&table, edit(1, 0x1000)), None);
    }

    #[test]
    fn each_cut_of_a_list_is_in_a_demanded_segment() {
        let list = [Kind::L1, Kind::L1, Kind::Unlink, Kind::New, Kind::Link, Kind::Flat];
        let all: Vec<Segment> = Segment::all().collect();
        let found = places(&list);
        assert!(found.iter().all(|(segment, _)| all.contains(segment)));
        assert_eq!(found.iter().map(|(_, places)| places.len()).sum::<usize>(), list.len() + 2);
    }
}
