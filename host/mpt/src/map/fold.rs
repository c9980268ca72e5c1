//! Lists of ranges that stay readable however long they are.

use super::access::BLOCK_BYTES;
use super::range::Range;
use super::shared::Holders;
use mpt_monitor::Permission;

/// So many ranges of one block are named one by one; more become one line.
const FEW: usize = 4;

/// A line of a list: a range, or many small ones of one block from the first to the last, with every
/// right that one of them has: no page has more, and perhaps none has all.
#[derive(Clone, Copy, Debug, PartialEq, Eq)]
pub struct Line<T> {
    pub range: Range<T>,
    pub count: usize,
}

/// The lines, and how many ranges are left out after them.
pub struct List<T> {
    pub lines: Vec<Line<T>>,
    pub more: usize,
}

/// What holds of ranges can be put together: every right that one of them has.
pub trait Join: Copy {
    fn join(self, other: Self) -> Self;
}

impl Join for Permission {
    fn join(self, other: Permission) -> Permission {
        // bit 0 to execute, bit 1 to write; both come with reading
        Permission::ALL[self as usize | other as usize]
    }
}

impl Join for Holders {
    fn join(self, other: Holders) -> Holders {
        Holders(std::array::from_fn(|slot| self.0[slot].join(other.0[slot])))
    }
}

/// A list of at most so many lines, or of every range where no number is given.
pub fn list<T: Join>(ranges: &[Range<T>], most: Option<usize>) -> List<T> {
    let mut lines: Vec<Line<T>> = ranges.iter().map(|&range| Line { range, count: 1 }).collect();
    match most {
        Some(most) if lines.len() > most => {
            lines = folded(ranges);
            let more = lines.iter().skip(most).map(|line| line.count).sum();
            lines.truncate(most);
            List { lines, more }
        }
        _ => List { lines, more: 0 },
    }
}

/// Where a block has more than a few ranges of its own, one line for them.
fn folded<T: Join>(ranges: &[Range<T>]) -> Vec<Line<T>> {
    let block = |range: &Range<T>| {
        let first = range.start / BLOCK_BYTES;
        (first == (range.end - 1) / BLOCK_BYTES).then_some(first)
    };
    let (mut lines, mut rest) = (Vec::new(), ranges);
    while let Some(first) = rest.first() {
        let alike = |range: &&Range<T>| block(range).is_some() && block(range) == block(first);
        let count = rest.iter().take_while(alike).count().max(1);
        let (group, after) = rest.split_at(count);
        if count > FEW {
            let what = group.iter().fold(first.what, |what, range| what.join(range.what));
            lines.push(Line { range: Range { start: first.start, end: group[count - 1].end, what }, count });
        } else {
            lines.extend(group.iter().map(|&range| Line { range, count: 1 }));
        }
        rest = after;
    }
    lines
}

#[cfg(test)]
mod tests {
    use super::*;
    use Permission::{None as Closed, Rw, Rwx, Rx};

    /// Every other page from `start`.
    fn pages(start: u64, count: u64) -> impl Iterator<Item = Range<Permission>> {
        (0..count).map(move |nth| {
            let start = start + nth * 0x2000;
            Range { start, end: start + 0x1000, what: if nth == 2 { Rw } else { Rx } }
        })
    }

    #[test]
    fn rights_are_put_together() {
        for each in Permission::ALL {
            assert_eq!((each.join(each), each.join(Closed), Closed.join(each)), (each, each, each));
            assert_eq!((each.join(Rwx), Rwx.join(each)), (Rwx, Rwx));
        }
        assert_eq!((Rx.join(Rw), Rw.join(Rx)), (Rwx, Rwx));
    }

    #[test]
    fn many_ranges_of_a_block_are_one_line_and_the_rest_is_counted() {
        let wide = Range { start: 0x1800_0000, end: 0x2800_0000, what: Rx };
        let ranges: Vec<_> = pages(0, 2000).chain(pages(0x1000_0000, 4)).chain([wide]).collect();
        let all = list(&ranges, None);
        assert_eq!((all.lines.len(), all.more), (2005, 0));
        let short = list(&ranges, Some(4));
        let many = Line { range: Range { start: 0, end: 0xF9_F000, what: Rwx }, count: 2000 };
        assert_eq!(short.lines[0], many);
        assert_eq!(short.lines[1..].iter().map(|line| line.count).collect::<Vec<_>>(), [1, 1, 1]);
        assert_eq!(short.more, 2);
        // what fits is not folded
        assert_eq!(list(&ranges[..6], Some(6)).lines.len(), 6);
    }
}
