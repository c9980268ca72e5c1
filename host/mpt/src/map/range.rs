//! Ranges of addresses, each with what holds of all of it.

use std::fmt::{self, Display, Formatter};

/// Addresses from `start` up to but not including `end`.
#[derive(Clone, Copy, Debug, PartialEq, Eq)]
pub struct Range<T> {
    pub start: u64,
    pub end: u64,
    pub what: T,
}

/// First and last address.
impl<T> Display for Range<T> {
    fn fmt(&self, f: &mut Formatter) -> fmt::Result {
        write!(f, "0x{:09x} to 0x{:09x}", self.start, self.end - 1)
    }
}

impl<T: Copy> Range<T> {
    pub fn size(&self) -> String {
        size(self.end - self.start)
    }

    /// The part of it that lies in `start..end`.
    pub fn within(&self, start: u64, end: u64) -> Option<Range<T>> {
        let (start, end) = (self.start.max(start), self.end.min(end));
        (start < end).then_some(Range { start, end, what: self.what })
    }
}

/// Adds a range above all others, joined to the last one where they meet and say the same.
pub fn push<T: Copy + PartialEq>(ranges: &mut Vec<Range<T>>, new: Range<T>) {
    match ranges.last_mut() {
        Some(last) if last.end == new.start && last.what == new.what => last.end = new.end,
        _ => ranges.push(new),
    }
}

/// Whole pages in the largest unit that says it exactly.
fn size(bytes: u64) -> String {
    let (unit, name) = match bytes.trailing_zeros() {
        30.. => (30, "GiB"),
        20.. => (20, "MiB"),
        _ => (10, "KiB"),
    };
    format!("{} {name}", grouped(bytes >> unit))
}

/// A number with a comma after each three digits.
pub fn grouped(number: u64) -> String {
    let digits = number.to_string();
    let comma = |at: usize| at > 0 && (digits.len() - at) % 3 == 0;
    digits.char_indices().flat_map(|(at, digit)| comma(at).then_some(',').into_iter().chain([digit])).collect()
}

#[cfg(test)]
mod tests {
    use super::*;

    #[test]
    fn neighbours_that_say_the_same_are_one() {
        let mut ranges = Vec::new();
        for (start, end, what) in [(0, 2, 'a'), (2, 3, 'a'), (3, 4, 'b'), (5, 6, 'b')] {
            push(&mut ranges, Range { start, end, what });
        }
        let ends: Vec<_> = ranges.iter().map(|range| (range.start, range.end, range.what)).collect();
        assert_eq!(ends, [(0, 3, 'a'), (3, 4, 'b'), (5, 6, 'b')]);
    }

    #[test]
    fn sizes_and_bounds() {
        assert_eq!(size(0x1000), "4 KiB");
        assert_eq!(size(0x20_1000), "2,052 KiB");
        assert_eq!(size(0x2000_0000), "512 MiB");
        assert_eq!(size(0xC000_0000), "3 GiB");
        assert_eq!(grouped(1_048_576), "1,048,576");
        let range = Range { start: 0x1000, end: 0x3000, what: () };
        assert_eq!(range.to_string(), "0x000001000 to 0x000002fff");
        assert_eq!(range.within(0x2000, 0x9000), Some(Range { start: 0x2000, ..range }));
        assert_eq!(range.within(0x3000, 0x9000), None);
    }
}
