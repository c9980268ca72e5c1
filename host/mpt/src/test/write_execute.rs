//! Write and execute together (document 02, item 6): "An edit asking for rwx in slots 1 to 7 is refused with 10, tested after 5
//! and before 6. Slot 0 keeps it. Pages already rwx stay so until edited."

use super::layout::{entries, linked, words_of, GIB_BLOCKS};
use super::reading::frame;
use mpt_monitor::{Answer, Edit, Permission, Refusal, Register, Slot, Table, PAGE_WORDS};

/// An edit that asks for rwx and how it is answered; or an edit of slots 1 to 7 beside pages that are rwx from before.
#[derive(Clone, Copy, Debug, PartialEq, Eq, PartialOrd, Ord)]
pub enum WriteExecute {
    /// Edited in slot 0, refused with 10 in the others.
    Asked(u64),
    /// Refused with 10, where the first and the last page of the range are rwx already, or not.
    Already { first: bool, last: bool },
    /// Refused with 10, where the range meets the lent pages.
    OverLent,
    /// Refused with 5, in slots 1 to 7.
    BadRange,
    /// In slots 1 to 7 an edit is whole, and pages beside its range are rwx still, in a block of this type.
    Stays(u64),
}

const ENDS: [(bool, bool, &str); 4] = [
    (false, false, "neither end"),
    (true, false, "the first page"),
    (false, true, "the last page"),
    (true, true, "both ends"),
];

impl WriteExecute {
    pub fn all() -> impl Iterator<Item = WriteExecute> {
        let asked = (0..8).map(WriteExecute::Asked);
        let already = ENDS.into_iter().map(|(first, last, _)| WriteExecute::Already { first, last });
        let others = [WriteExecute::OverLent, WriteExecute::BadRange, WriteExecute::Stays(6), WriteExecute::Stays(4)];
        asked.chain(already).chain(others)
    }

    /// What an edit and its answer are; the table is as it stands after it.
    pub fn of(table: &Table, edit: Edit, answer: Answer) -> Vec<WriteExecute> {
        let of_slot_0 = edit.slot == Slot(0);
        match (answer, edit.permission) {
            (Answer::Edited(_), Permission::Rwx) if of_slot_0 => vec![WriteExecute::Asked(0)],
            (Answer::Edited(edited), _) if !of_slot_0 && edited.all => stays(table, edit),
            (Answer::Refused(Refusal::BadRange), Permission::Rwx) if !of_slot_0 => vec![WriteExecute::BadRange],
            (Answer::Refused(Refusal::NoWriteExecute), _) => refused(table, edit),
            _ => Vec::new(),
        }
    }

    /// The table of the summary, the row and the column.
    pub fn place(self) -> (&'static str, String, String) {
        let others = |row: &str| ("write and execute together, and what else is so", row.to_string(), String::new());
        match self {
            WriteExecute::Asked(slot) => {
                ("rwx asked for: edited in slot 0, else refused with 10", String::new(), format!("slot {slot}"))
            }
            WriteExecute::Already { first, last } => {
                let end = ENDS.iter().find(|end| (end.0, end.1) == (first, last)).expect("all four are there");
                ("rwx refused with 10: which end of the range is rwx already", String::new(), end.2.to_string())
            }
            WriteExecute::OverLent => others("rwx over the lent pages refused with 10"),
            WriteExecute::BadRange => others("rwx over a bad range refused with 5, in slots 1 to 7"),
            WriteExecute::Stays(kind) => {
                others(&format!("rwx from before beside an edit, in slots 1 to 7, TYPE {kind}"))
            }
        }
    }
}

fn refused(table: &Table, edit: Edit) -> Vec<WriteExecute> {
    let (start, end) = (edit.start.0, edit.start.0 + edit.length);
    let root = Register(table.slots()[edit.slot.0 as usize]).root().0;
    let is_rwx = |address| second::permission_at(frame(table), table.words(), root, address) == Some(3);
    let lent = table.frame().first.0..table.frame().first.0 + (table.words().len() / PAGE_WORDS) as u64;
    let mut all = vec![
        WriteExecute::Asked(edit.slot.0),
        WriteExecute::Already { first: is_rwx(start), last: is_rwx(end - 4096) },
    ];
    if start >> 12 < lent.end && lent.start < end >> 12 {
        all.push(WriteExecute::OverLent);
    }
    all
}

/// What is rwx in the GiBs that an edit touched, and so beside its range: in slots 1 to 7 it asked for less.
fn stays(table: &Table, edit: Edit) -> Vec<WriteExecute> {
    let register = Register(table.slots()[edit.slot.0 as usize]);
    let gibs = (edit.start.0 >> 30) as usize..=((edit.start.0 + edit.length - 1) >> 30) as usize;
    let touched = gibs.start() * GIB_BLOCKS..(gibs.end() + 1) * GIB_BLOCKS;
    let blocks = entries(table, register).and_then(|entries| entries.get(touched)).unwrap_or(&[]);
    let pieces = |entry: &u64| entry >> 44 == 6 && entry & entry >> 1 & 0x5555_5555 != 0;
    let fields = |page| {
        let words = words_of(table, page).map_or(&[][..], |at| &table.words()[at]);
        words.iter().any(|word| word & word >> 1 & 0x1111_1111_1111_1111 != 0)
    };
    let pages = |entry: &u64| linked(*entry).map_or(false, fields);
    let found = [(6, blocks.iter().any(pieces)), (4, blocks.iter().any(pages))];
    found.into_iter().filter(|(_, is)| *is).map(|(kind, _)| WriteExecute::Stays(kind)).collect()
}

#[cfg(test)]
mod tests {
    use super::*;
    use crate::answer::{Outcome, Reply};
    use crate::command::{parse, Command};
    use crate::programs::SECOND;
    use crate::sides::Sides;

    #[test]
    fn what_a_few_edits_are() {
        let mut sides = Sides::new(&[SECOND]);
        let mut met = |line: &str| -> Vec<WriteExecute> {
            let command = parse(line).unwrap().unwrap();
            let outcome = sides.obey(&command);
            match (command, outcome) {
                (Command::Edit(edit), Outcome::Answer(Reply::Call(answer))) => {
                    WriteExecute::of(sides.table().unwrap(), edit, answer)
                }
                _ => Vec::new(),
            }
        };
        for line in ["frame 31 0x40000 8", "open 0 1", "open 1 2", "open 7 3"] {
            assert_eq!(met(line), []);
        }
        assert_eq!(met("edit 0 0 0x1000 rwx 1"), [WriteExecute::Asked(0)]);
        let neither = WriteExecute::Already { first: false, last: false };
        assert_eq!(met("edit 1 0 0x1000 rwx 1536"), [WriteExecute::Asked(1), neither]);
        assert_eq!(met("edit 7 0x3FFFF000 0x2000 rwx 0"), [WriteExecute::Asked(7), neither, WriteExecute::OverLent]);
        assert_eq!(met("edit 7 0x3FFFF000 0x800 rwx 0"), [WriteExecute::BadRange]);
        assert_eq!(met("edit 1 0 0x1000 rx 1536"), []);
        // slot 1's root begins with word 512 and its L1 page with word 1536: block 1 has an rwx piece, block 0 an rwx page
        assert_eq!((met("poke 513 0x60000000000C"), met("poke 1537 0x3")), (vec![], vec![]));
        assert_eq!(met("edit 1 0x4000000 0x1000 rw 2"), [], "cut");
        assert_eq!(met("edit 1 0x4000000 0x1000 rw 1536"), [WriteExecute::Stays(6), WriteExecute::Stays(4)]);
        let first = WriteExecute::Already { first: true, last: false };
        assert_eq!(met("edit 1 0x10000 0x2000 rwx 1536"), [WriteExecute::Asked(1), first]);
        let last = WriteExecute::Already { first: false, last: true };
        assert_eq!(met("edit 1 0 0x11000 rwx 1536"), [WriteExecute::Asked(1), last]);
    }

    #[test]
    fn every_class_has_a_place_of_its_own() {
        let mut places: Vec<_> = WriteExecute::all().map(WriteExecute::place).collect();
        let count = places.len();
        places.sort();
        places.dedup();
        assert_eq!((places.len(), count), (16, 16));
    }
}
