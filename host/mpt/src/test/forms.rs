//! The form of each block that an edit meets, before it and after it.

use super::layout::{entries, linked, spread, words_of, GIB_BLOCKS};
use mpt_monitor::{Edit, Register, Table};

/// The form of a block.
#[derive(Clone, Copy, Debug, PartialEq, Eq, PartialOrd, Ord)]
enum Form {
    /// TYPE 0 to 3.
    OneG,
    /// TYPE 6.
    Pieces,
    /// TYPE 4.
    Pages,
}

/// How much of a block the range covers.
#[derive(Clone, Copy, Debug, PartialEq, Eq, PartialOrd, Ord)]
enum Span {
    Outside,
    Part,
    Whole,
}

/// A block of a touched GiB: its form before a whole edit, the form that its permissions were due if
/// an edit had finished it, what the range covers of it, and its form after.
#[derive(Clone, Copy, Debug, PartialEq, Eq, PartialOrd, Ord)]
pub struct Change {
    now: Form,
    due: Form,
    span: Span,
    after: Form,
}

const FORMS: [(Form, &str); 3] = [(Form::OneG, "1G"), (Form::Pieces, "TYPE 6"), (Form::Pages, "TYPE 4")];
const SPANS: [(Span, &str); 3] = [(Span::Outside, "outside"), (Span::Part, "part"), (Span::Whole, "whole")];
const BLOCK_BYTES: u64 = 1 << 25;

impl Change {
    /// All that can be: pieces can't be in a 1G type, nor pages in TYPE 6.
    pub fn all() -> impl Iterator<Item = Change> {
        let forms = || FORMS.into_iter().map(|(form, _)| form);
        let before = forms().flat_map(move |now| forms().map(move |due| (now, due)));
        let held = before.filter(|(now, due)| due <= now || (*now, *due) == (Form::OneG, Form::Pieces));
        let spans = held.flat_map(|before| SPANS.into_iter().map(move |(span, _)| (before, span)));
        let all = spans.flat_map(move |((now, due), span)| forms().map(move |after| Change { now, due, span, after }));
        all.filter(Change::can_be)
    }

    fn can_be(&self) -> bool {
        match self.span {
            Span::Whole => self.after != Form::Pages,
            Span::Part => true,
            // its own permissions stay, so that mixed pieces stay mixed
            Span::Outside => (self.due == Form::Pages) == (self.after == Form::Pages),
        }
    }

    pub fn place(self) -> (String, String) {
        let name = |form: Form| FORMS[form as usize].1;
        let finished = self.now == self.due;
        let row = if finished {
            format!("{}, finished", name(self.now))
        } else {
            format!("{} for {}", name(self.now), name(self.due))
        };
        (row, format!("{} to {}", SPANS[self.span as usize].1, name(self.after)))
    }
}

/// The changes of every block in the GiBs that an accepted edit touches.
pub fn changes(before: &Table, after: &Table, edit: Edit) -> Vec<Change> {
    let register = Register(before.slots()[edit.slot.0 as usize]);
    let (before_entries, after_entries) = match (entries(before, register), entries(after, register)) {
        (Some(before), Some(after)) => (before, after),
        _ => return Vec::new(),
    };
    let end = edit.start.0 + edit.length;
    let gibs = (edit.start.0 >> 30) as usize..=((end - 1) >> 30) as usize;
    let of_gib = |gib: usize| {
        let blocks = gib * GIB_BLOCKS..(gib + 1) * GIB_BLOCKS;
        let contents: Vec<Content> = before_entries[blocks.clone()].iter().map(|&word| content(before, word)).collect();
        let one = matches!(contents[0], Content::One(_)) && contents.iter().all(|each| *each == contents[0]);
        let change = move |(block, content): (usize, Content)| Change {
            now: form(before_entries[block]),
            due: if one { Form::OneG } else { content.form() },
            span: span(block as u64 * BLOCK_BYTES, edit.start.0, end),
            after: form(after_entries[block]),
        };
        blocks.zip(contents).map(change)
    };
    gibs.flat_map(of_gib).collect()
}

fn form(entry: u64) -> Form {
    match entry >> 44 {
        4 => Form::Pages,
        6 => Form::Pieces,
        _ => Form::OneG,
    }
}

fn span(block: u64, start: u64, end: u64) -> Span {
    let covered = end.min(block + BLOCK_BYTES).saturating_sub(start.max(block));
    match covered {
        0 => Span::Outside,
        BLOCK_BYTES => Span::Whole,
        _ => Span::Part,
    }
}

/// What a block's permissions are.
#[derive(Clone, Copy, PartialEq, Eq)]
enum Content {
    One(u64),
    /// Each piece is of one permission, and not all of the same.
    Pieces,
    Pages,
}

impl Content {
    /// The finished form in a GiB that is mixed.
    fn form(self) -> Form {
        match self {
            Content::Pages => Form::Pages,
            _ => Form::Pieces,
        }
    }
}

fn content(table: &Table, entry: u64) -> Content {
    let info = match linked(entry).and_then(|page| words_of(table, page)) {
        Some(at) => {
            let pieces = table.words()[at].chunks(32);
            let mixed = pieces.clone().any(|piece| piece.iter().any(|&word| word != spread(piece[0] & 3)));
            if mixed {
                return Content::Pages;
            }
            pieces.enumerate().map(|(nth, piece)| (piece[0] & 3) << (2 * nth)).sum()
        }
        None if entry >> 44 == 6 => entry & 0xFFFF_FFFF,
        None => (entry >> 44) * 0x5555_5555,
    };
    match info == (info & 3) * 0x5555_5555 {
        true => Content::One(info & 3),
        false => Content::Pieces,
    }
}

#[cfg(test)]
mod tests {
    use super::*;
    use crate::programs::SECOND;
    use mpt_monitor::{Address, Frame, PageNumber, Permission, Sdid, Slot};

    fn counted(table: &mut Table, start: u64, length: u64, permission: Permission) -> Vec<String> {
        let edit = Edit { slot: Slot(0), start: Address(start), length, permission, limit: u64::MAX };
        let before = table.clone();
        assert!(SECOND.monitor().edit(table, edit).unwrap().all);
        let mut rows: Vec<String> =
            changes(&before, table, edit).iter().map(|change| change.place().0 + ": " + &change.place().1).collect();
        rows.dedup();
        rows
    }

    #[test]
    fn the_forms_of_cases_c_and_g_and_of_an_unfinished_table() {
        let mut table = Table::new(Frame { paw: 32, first: PageNumber(0x80000) }, 16);
        SECOND.monitor().open(&mut table, Slot(0), Sdid(5)).unwrap();
        let rw = Permission::Rw;
        let c = ["1G, finished: part to TYPE 4", "1G, finished: outside to TYPE 6"];
        assert_eq!(counted(&mut table, 0x4000_0000, 0x1000, rw), c);
        let mut unfinished = table.clone();
        let g = ["TYPE 4, finished: whole to 1G", "TYPE 6, finished: whole to 1G"];
        assert_eq!(counted(&mut table, 0x4000_0000, 0x4000_0000, rw), g);
        unfinished.words_mut()[512] = 0;
        let back = ["TYPE 4 for 1G: part to 1G", "TYPE 6 for 1G: outside to 1G"];
        assert_eq!(counted(&mut unfinished, 0x4000_3000, 0x1000, Permission::None), back);
    }

    #[test]
    fn forty_eight_changes_can_be() {
        assert_eq!(Change::all().count(), 48);
    }
}
