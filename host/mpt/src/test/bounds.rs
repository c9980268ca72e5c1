//! Bounds of document 01 that a frame, an address or a range lies just inside or just outside.

use mpt_monitor::{Edit, Frame, Permission};

/// A bound of a frame, and on which side of it the frame lies; all else of the frame is in bounds.
#[derive(Clone, Copy, Debug, PartialEq, Eq, PartialOrd, Ord)]
pub struct FrameBound {
    what: Part,
    side: Side,
}

#[derive(Clone, Copy, Debug, PartialEq, Eq, PartialOrd, Ord)]
enum Part {
    Paw,
    Pages,
    Words,
    First,
}

#[derive(Clone, Copy, Debug, PartialEq, Eq, PartialOrd, Ord)]
enum Side {
    Below,
    Lowest,
    Highest,
    Above,
}

const SIDES: [(Side, &str); 4] =
    [(Side::Below, "one too low"), (Side::Lowest, "lowest"), (Side::Highest, "highest"), (Side::Above, "one too high")];
const PARTS: [(Part, &str); 4] =
    [(Part::Paw, "PAW"), (Part::Pages, "pages"), (Part::Words, "words"), (Part::First, "first page")];

impl FrameBound {
    pub fn all() -> impl Iterator<Item = FrameBound> {
        let both = |(what, _)| SIDES.into_iter().map(move |(side, _)| FrameBound { what, side });
        // words are whole pages or not: no lowest and highest
        let fits = |bound: &FrameBound| bound.what != Part::Words || matches!(bound.side, Side::Below | Side::Above);
        PARTS.into_iter().flat_map(both).filter(fits)
    }

    /// The bounds that a frame with so many words lies at.
    pub fn of(frame: Frame, words: usize) -> Vec<FrameBound> {
        let side = |number: u128, lowest: u128, highest: u128| match number {
            _ if number + 1 == lowest => Some(Side::Below),
            _ if number == lowest => Some(Side::Lowest),
            _ if number == highest => Some(Side::Highest),
            _ if number == highest + 1 => Some(Side::Above),
            _ => None,
        };
        let pages = (words / 512) as u128;
        let whole = match words % 512 {
            0 => None,
            1 => Some(Side::Above),
            511 => Some(Side::Below),
            _ => None,
        };
        let last = (1u128 << frame.paw.clamp(12, 76) >> 12).saturating_sub(pages);
        let sides = [
            (Part::Paw, side(frame.paw.into(), 30, 34)),
            (Part::Pages, side(pages, 2, 256)),
            (Part::Words, whole),
            (Part::First, side(frame.first.0.into(), 1, last)),
        ];
        let broken = sides.iter().filter(|(_, side)| matches!(side, Some(Side::Below | Side::Above))).count();
        let alone = |side: Side| broken == usize::from(matches!(side, Side::Below | Side::Above));
        let bound = |(what, side): (Part, Option<Side>)| side.map(|side| FrameBound { what, side });
        sides.into_iter().filter_map(bound).filter(|bound| alone(bound.side)).collect()
    }

    pub fn place(self) -> (String, String) {
        (PARTS[self.what as usize].1.to_string(), SIDES[self.side as usize].1.to_string())
    }
}

/// The last byte below a bound, or the first byte at it.
#[derive(Clone, Copy, Debug, PartialEq, Eq, PartialOrd, Ord)]
pub struct AddressBound {
    bound: usize,
    at: bool,
}

/// Each bound of an address, with its unit if it is a multiple of one.
const BOUNDS: [(&str, u64); 8] = [
    ("a page", 1 << 12),
    ("an L1 entry", 1 << 16),
    ("a piece", 1 << 21),
    ("a block", 1 << 25),
    ("a GiB", 1 << 30),
    ("the lent pages", 0),
    ("their end", 0),
    ("2^PAW", 0),
];

impl AddressBound {
    pub fn all() -> impl Iterator<Item = AddressBound> {
        (0..BOUNDS.len()).flat_map(|bound| [false, true].map(|at| AddressBound { bound, at }))
    }

    /// The bounds that an address lies at, of those inside the address space and its end.
    pub fn of(frame: Frame, words: usize, address: u64) -> Vec<AddressBound> {
        let space = 1 << frame.paw;
        let lent = [frame.first.0, frame.first.0 + words as u64 / 512].map(|page| page << 12);
        let is_at = |bound: usize, address: u64| match bound {
            5 | 6 => address == lent[bound - 5],
            7 => address == space,
            _ => address % BOUNDS[bound].1 == 0 && address < space,
        };
        let here = |bound: &AddressBound| match bound.at {
            true => is_at(bound.bound, address),
            false => address.checked_add(1).map_or(false, |next| is_at(bound.bound, next)),
        };
        AddressBound::all().filter(here).collect()
    }

    pub fn place(self) -> (String, String) {
        let side = if self.at { "the first byte of" } else { "the byte before" };
        (BOUNDS[self.bound].0.to_string(), side.to_string())
    }
}

/// How a range lies beside the lent pages or the end of the address space.
#[derive(Clone, Copy, Debug, PartialEq, Eq, PartialOrd, Ord)]
pub struct RangeBound {
    nth: usize,
    none: bool,
}

const RANGES: [&str; 10] = [
    "ends where the lent pages begin",
    "ends with the first lent page",
    "begins with the last lent page",
    "begins where the lent pages end",
    "holds all lent pages",
    "lies in the lent pages",
    "ends at 2^PAW",
    "ends a page past 2^PAW",
    "begins at 2^PAW",
    "goes round 2^64",
];

impl RangeBound {
    pub fn all() -> impl Iterator<Item = RangeBound> {
        (0..RANGES.len()).flat_map(|nth| [false, true].map(|none| RangeBound { nth, none }))
    }

    pub fn of(frame: Frame, words: usize, edit: Edit) -> Vec<RangeBound> {
        let space = 1u128 << frame.paw;
        let start = u128::from(edit.start.0);
        let end = start + u128::from(edit.length);
        let [first, last] = [frame.first.0, frame.first.0 + words as u64 / 512].map(|page| u128::from(page) << 12);
        let is = [
            end == first,
            start < first && end == first + 4096,
            start == last - 4096 && end > last,
            start == last,
            start <= first && end >= last,
            start >= first && end <= last,
            end == space,
            end == space + 4096,
            start == space,
            end >= 1 << 64,
        ];
        let good = edit.length != 0 && (start | end) % 4096 == 0;
        let none = edit.permission == Permission::None;
        (0..RANGES.len()).filter(|&nth| good && is[nth]).map(|nth| RangeBound { nth, none }).collect()
    }

    pub fn place(self) -> (String, String) {
        let permission = if self.none { "none" } else { "rx, rw, rwx" };
        (RANGES[self.nth].to_string(), permission.to_string())
    }
}

#[cfg(test)]
mod tests {
    use super::*;
    use mpt_monitor::{Address, PageNumber, Slot};

    const FRAME: Frame = Frame { paw: 32, first: PageNumber(0x80000) };

    #[test]
    fn frames_at_their_bounds() {
        let named = |paw, first, words| -> Vec<String> {
            let bounds = FrameBound::of(Frame { paw, first: PageNumber(first) }, words).into_iter();
            bounds.map(|bound| format!("{}: {}", bound.place().0, bound.place().1)).collect()
        };
        assert_eq!(named(32, 5, 1024), ["pages: lowest"]);
        assert_eq!(named(29, 5, 5 * 512), ["PAW: one too low"]);
        assert_eq!(named(34, (1 << 22) - 256, 256 * 512), ["PAW: highest", "pages: highest", "first page: highest"]);
        assert_eq!(named(33, (1 << 21) - 2, 3 * 512), ["first page: one too high"]);
        assert_eq!(named(33, 0, 3 * 512 + 1), Vec::<String>::new(), "two things are wrong");
        assert_eq!(named(33, 9, 3 * 512 - 1), ["words: one too low"]);
    }

    #[test]
    fn addresses_at_their_bounds() {
        let rows = |address| -> Vec<String> {
            let bounds = AddressBound::of(FRAME, 1024, address).into_iter();
            bounds.map(|bound| format!("{} {}", bound.place().1, bound.place().0)).collect()
        };
        assert_eq!(rows(0x4001), Vec::<String>::new());
        assert_eq!(rows(0x8000_2000), ["the first byte of a page", "the first byte of their end"]);
        assert_eq!(rows((1 << 32) - 1), ["the byte before 2^PAW"]);
        assert_eq!(rows(1 << 32), ["the first byte of 2^PAW"]);
        assert_eq!(rows((1 << 25) - 1).len(), 4);
        assert_eq!(rows(u64::MAX), Vec::<String>::new());
    }

    #[test]
    fn ranges_at_their_bounds() {
        let rows = |start, length| -> Vec<String> {
            let edit = Edit { slot: Slot(0), start: Address(start), length, permission: Permission::Rw, limit: 0 };
            RangeBound::of(FRAME, 1024, edit).into_iter().map(|bound| bound.place().0).collect()
        };
        assert_eq!(rows(0x7FFF_F000, 0x1000), ["ends where the lent pages begin"]);
        assert_eq!(rows(0x7FFF_F000, 0x2000), ["ends with the first lent page"]);
        assert_eq!(rows(0x8000_1000, 0x2000), ["begins with the last lent page"]);
        assert_eq!(rows(0x8000_1000, 0x1000), ["lies in the lent pages"]);
        assert_eq!(rows(0xFFFF_F000, 0x2000), ["ends a page past 2^PAW"]);
        assert_eq!(rows(u64::MAX - 4095, 4096), ["goes round 2^64"]);
        assert_eq!(rows(0xFFFF_F000, 0), Vec::<String>::new());
    }
}
