//! Reserved bits of L1 entries: "a reserved bit set in any of its 16 fields faults the access" (document 02, item 3), and no
//! access that reads another entry.

use super::aim::walk_to;
use super::class::Class;
use super::layout::{FIELDS, RESERVED};
use super::trial::{Failure, Trial};
use crate::answer::Reply;
use crate::command::{Command, KINDS};
use crate::random::Random;
use mpt_monitor::{Address, Answer, Cause, Kind, Privilege, Verdict, PAGE_WORDS};

/// Reserved bits that were set in an L1 entry, and an access to a page that its field opens to every kind of access.
#[derive(Clone, Copy, Debug, PartialEq, Eq, PartialOrd, Ord)]
pub enum Reserved {
    /// One bit, in this place.
    Bit(u8, Page),
    /// One bit, and an access of this kind, by its code.
    Kind(u8, Page),
    Several(Page),
}

/// Whose page it is.
#[derive(Clone, Copy, Debug, PartialEq, Eq, PartialOrd, Ord)]
pub enum Page {
    /// Of a field that has a bit.
    Own,
    /// Of a field that has none, in the same entry.
    Beside,
    /// Of the entry before, which has none.
    Before,
    /// Of the entry after, which has none.
    After,
}

const PAGES: [(Page, &str); 4] = [
    (Page::Own, "a field that has such a bit"),
    (Page::Beside, "another field of the entry"),
    (Page::Before, "the entry before"),
    (Page::After, "the entry after"),
];

impl Reserved {
    pub fn all() -> impl Iterator<Item = Reserved> {
        let pages = || PAGES.iter().map(|(page, _)| *page);
        let places = (0..64).filter(|bit| RESERVED >> bit & 1 == 1);
        let bits = places.flat_map(move |bit| pages().map(move |page| Reserved::Bit(bit, page)));
        let kinds = (0..9).flat_map(move |kind| pages().map(move |page| Reserved::Kind(kind, page)));
        bits.chain(kinds).chain(pages().map(Reserved::Several))
    }

    fn of(bits: u64, page: Page, kind: Kind) -> Vec<Reserved> {
        match bits.is_power_of_two() {
            true => vec![Reserved::Bit(bits.trailing_zeros() as u8, page), Reserved::Kind(kind.code() as u8, page)],
            false => vec![Reserved::Several(page)],
        }
    }

    /// The table of the summary, the row and the column.
    pub fn place(self) -> (&'static str, String, String) {
        let (page, column) = match self {
            Reserved::Bit(bit, page) => (page, format!("fields {}-{}", bit / 16 * 4, bit / 16 * 4 + 3)),
            Reserved::Kind(kind, page) => (page, KINDS[usize::from(kind)].to_string()),
            Reserved::Several(page) => (page, "several bits".to_string()),
        };
        let table = match self {
            Reserved::Bit(..) => "a reserved bit of an L1 entry, by its field and by whose page is asked for",
            _ => "reserved bits of an L1 entry, one by the kind of access, and several",
        };
        (table, PAGES[page as usize].1.to_string(), column)
    }
}

/// The fault of the original access where the entry that is read has a reserved bit, and else none, since its page is rwx.
fn right(page: Page, kind: Kind) -> Verdict {
    match page {
        Page::Own | Page::Beside => Verdict::Fault(Cause::ALL[kind.code() as usize % 3]),
        Page::Before | Page::After => Verdict::Allowed,
    }
}

fn is_right(reply: &Reply, page: Page, kind: Kind) -> Result<(), String> {
    let wanted = Reply::Call(Answer::Looked(right(page, kind)));
    match *reply == wanted {
        true => Ok(()),
        false => Err(format!("reserved bits, page of {}: {reply}, and right is {wanted}", PAGES[page as usize].1)),
    }
}

/// How often several bits are set in an entry, after each by itself.
const SEVERAL: usize = 16;

/// Reserved bits in an L1 entry of a sound table, word `index`: each of the 32 in turn, then several. Of each an access to a page of
/// each kind, whose answer must be right. Nothing is left of it.
pub fn sweep(trial: &mut Trial, random: &mut Random, index: usize) -> Result<(), Failure> {
    let walk = match walk_to(trial.table(), index) {
        Some(walk) if walk.in_l1 => walk,
        _ => return Ok(()),
    };
    let neighbours = neighbours(index);
    let touched = neighbours.iter().map(|(at, _)| *at).chain([index]);
    let kept: Vec<(usize, u64)> = touched.map(|at| (at, trial.table().words()[at])).collect();
    for &(at, _) in &neighbours {
        trial.obey(Command::Poke { index: at, word: FIELDS })?;
    }
    for bits in bits(random) {
        let own = u64::from(bits.trailing_zeros()) / 4;
        let others: Vec<u64> = (0..16).filter(|field| bits >> (4 * field) & 15 == 0).collect();
        let beside = random.pick(&others);
        let word = random.next() & FIELDS | 3 << (4 * own) | 3 << (4 * beside) | bits;
        trial.obey(Command::Poke { index, word })?;
        let accesses = [(index, own, Page::Own), (index, beside, Page::Beside)];
        let next = neighbours.iter().map(|&(at, page)| (at, random.below(16), page)).collect::<Vec<_>>();
        for (at, field, page) in accesses.into_iter().chain(next) {
            let address =
                walk.address >> 25 << 25 | ((at % PAGE_WORDS) as u64) << 16 | field << 12 | random.below(4096);
            let (privilege, kind) = (random.pick(&Privilege::ALL[..2]), super::generate::kind(random));
            let lookup = Command::Lookup { register: walk.register, privilege, kind, address: Address(address) };
            let reply = trial.obey(lookup)?;
            trial.check(is_right(&reply, page, kind))?;
            Reserved::of(bits, page, kind).into_iter().for_each(|met| trial.tally.note(Class::Reserved(met)));
        }
    }
    kept.iter().try_for_each(|&(index, word)| trial.obey(Command::Poke { index, word }).map(drop))
}

/// The entries before and after, of the same L1 page.
fn neighbours(index: usize) -> Vec<(usize, Page)> {
    let before = (index % PAGE_WORDS > 0).then(|| (index - 1, Page::Before));
    let after = (index % PAGE_WORDS < PAGE_WORDS - 1).then(|| (index + 1, Page::After));
    before.into_iter().chain(after).collect()
}

/// Each reserved bit by itself; then two to five of them at once, so that a field without one is left.
fn bits(random: &mut Random) -> Vec<u64> {
    let single = (0..64).map(|bit| 1 << bit).filter(|bit| RESERVED & bit != 0);
    let mut place = || 1 << (4 * random.below(16) + random.pick(&[2, 3]));
    let several: Vec<u64> = (0..SEVERAL).map(|nth| (0..2 + nth % 4).fold(0, |bits, _| bits | place())).collect();
    single.chain(several).collect()
}

#[cfg(test)]
mod tests {
    use super::*;
    use crate::programs::all;
    use mpt_monitor::{Access, Frame, PageNumber, Table};

    #[test]
    fn a_wrong_answer_is_seen() {
        let reply = |verdict| Reply::Call(Answer::Looked(verdict));
        let store = Kind::PageTableRead(Access::Store);
        for page in [Page::Own, Page::Beside] {
            assert_eq!(is_right(&reply(Verdict::Fault(Cause::Store)), page, store), Ok(()));
            assert!(is_right(&reply(Verdict::Fault(Cause::Load)), page, store).is_err());
            assert!(is_right(&reply(Verdict::Allowed), page, store).is_err());
        }
        for page in [Page::Before, Page::After] {
            assert_eq!(is_right(&reply(Verdict::Allowed), page, store), Ok(()));
            assert!(is_right(&reply(Verdict::Fault(Cause::Store)), page, store).is_err());
        }
    }

    /// Block 32 by pages. The first and the last entry of the L1 page have one neighbour, the others two.
    #[test]
    fn a_few_sweeps_meet_every_class_and_leave_nothing() {
        let mut table = Table::new(Frame { paw: 32, first: PageNumber(0x80000) }, 2);
        table.slots_mut()[0] = 0x1140_0000_0008_0000;
        table.words_mut()[32] = 0x0000_4000_0008_0001;
        table.words_mut()[512..514].copy_from_slice(&[0x2, 0x1]);
        let mut trial = Trial::new(&all());
        trial.start(table.clone());
        let mut random = Random::new(1, 0);
        for index in [512, 513, 1023, 700] {
            sweep(&mut trial, &mut random, index).unwrap();
        }
        assert_eq!(*trial.table(), table);
        let missing = |met: &Reserved| trial.tally.times(Class::Reserved(*met)) == 0;
        assert_eq!(Reserved::all().filter(missing).collect::<Vec<_>>(), []);
        assert_eq!(Reserved::all().count(), 4 * (32 + 9 + 1));
    }
}
