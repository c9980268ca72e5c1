//! One block of a domain: its L2 entry and what is open in it.

use super::access::{Lookups, BLOCK_BYTES, BLOCK_PAGES};
use super::range::Range;
use mpt_monitor::Permission;
use second::L2;

/// Pieces of 2 MiB in a block.
pub const PIECES: usize = 16;
const PIECE_BYTES: u64 = BLOCK_BYTES / PIECES as u64;

/// A block of 32 MiB.
#[derive(Clone, Copy, Debug, PartialEq, Eq)]
pub struct Block {
    /// Nothing where the register leads to no root page that could be read.
    pub entry: Option<u64>,
    pub form: Form,
    pub shade: Shade,
    pub pieces: [Shade; PIECES],
}

/// How the table says the permissions of a block.
#[derive(Clone, Copy, Debug, PartialEq, Eq)]
pub enum Form {
    /// By a 1G type.
    Whole,
    /// By TYPE 6.
    Pieces,
    /// By TYPE 4, with the L1 page. An entry of it may have a reserved bit set: then its 16 pages fault.
    Pages { page: u64, reserved: bool },
    /// The entry breaks the rules, or names a page that is not lent, or there is none.
    Bad,
    /// The register is Bare: no table is read.
    Bare,
}

/// The permissions of some pages, in short.
#[derive(Clone, Copy, Debug, PartialEq, Eq)]
pub struct Shade {
    /// The last in the order none, rx, rw, rwx that a page has.
    pub strongest: Permission,
    /// Not all of the pages have it.
    pub mixed: bool,
}

impl Form {
    /// The form of a block by its entry, as the second program reads it.
    pub fn of(frame: second::Frame, words: &[u64], entry: u64) -> Form {
        match L2::from_word(entry) {
            Some(L2::Whole(_)) => Form::Whole,
            Some(L2::Pieces(_)) => Form::Pieces,
            Some(L2::Pages(page)) => match frame.page(words, page) {
                Some(entries) => {
                    Form::Pages { page, reserved: entries.iter().any(|&entry| second::l1_permissions(entry).is_none()) }
                }
                None => Form::Bad,
            },
            None => Form::Bad,
        }
    }

    /// How many pages one permission of this form speaks for.
    fn span(self) -> u64 {
        match self {
            Form::Whole | Form::Bad | Form::Bare => BLOCK_PAGES,
            Form::Pieces => BLOCK_PAGES / PIECES as u64,
            Form::Pages { .. } => 1,
        }
    }

    /// What an L2 entry of this form is.
    pub fn text(self) -> String {
        match self {
            Form::Whole => "1G type: one permission for the block".to_string(),
            Form::Pieces => "TYPE 6: by pieces of 2 MiB".to_string(),
            Form::Pages { page, reserved: false } => format!("TYPE 4: by pages, L1 page 0x{page:x}"),
            Form::Pages { page, reserved: true } => {
                format!("TYPE 4: by pages, L1 page 0x{page:x}, in which reserved bits are set")
            }
            Form::Bad => "faults: a bad entry or a page that is not lent".to_string(),
            Form::Bare => "Bare: no table is read".to_string(),
        }
    }
}

/// The block of that number, and its ranges with none left out.
pub fn block(lookups: Lookups, number: usize, form: Form, entry: Option<u64>) -> (Block, Vec<Range<Permission>>) {
    let ranges = lookups.block(number, form.span());
    let start = number as u64 * BLOCK_BYTES;
    let pieces = std::array::from_fn(|nth| {
        let start = start + nth as u64 * PIECE_BYTES;
        shade(&ranges, start, start + PIECE_BYTES)
    });
    (Block { entry, form, shade: shade(&ranges, start, start + BLOCK_BYTES), pieces }, ranges)
}

/// Of the addresses `start..end`, which the ranges cover.
fn shade(ranges: &[Range<Permission>], start: u64, end: u64) -> Shade {
    let first = ranges.partition_point(|range| range.end <= start);
    let within = || ranges[first..].iter().take_while(|range| range.start < end);
    // one that a page has: where some have rx and others rw it is rw, and not rwx, which none has
    let strongest = within().map(|range| range.what).max_by_key(|what| *what as usize).unwrap_or(Permission::None);
    Shade { strongest, mixed: within().any(|range| range.what != strongest) }
}

#[cfg(test)]
mod tests {
    use super::*;
    use Permission::{None as Closed, Rw, Rwx, Rx};

    #[test]
    fn a_shade_is_a_permission_that_a_page_has() {
        let shade = |parts: &[Permission]| {
            let range = |(nth, what)| Range { start: nth, end: nth + 1, what };
            let ranges: Vec<_> = (0..).zip(parts.iter().copied()).map(range).collect();
            super::shade(&ranges, 0, parts.len() as u64)
        };
        let mixed = |strongest| Shade { strongest, mixed: true };
        assert_eq!((shade(&[Rx, Rw]), shade(&[Rw, Rx, Closed])), (mixed(Rw), mixed(Rw)));
        assert_eq!((shade(&[Closed, Rx]), shade(&[Rwx, Rw])), (mixed(Rx), mixed(Rwx)));
        assert_eq!(shade(&[Rx, Rx]), Shade { strongest: Rx, mixed: false });
    }
}
