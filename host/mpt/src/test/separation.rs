//! Domains that are kept apart or not (document 02, item 13): what is found, where, and beside what else.

use super::layout::{entries, linked, pages};
use super::reading::{frame, used_pages};
use mpt_monitor::{PageNumber, Register, Separation, Slot, Strength, Table};

/// What an answer tells, or what else is so of the page or the table that it is about.
#[derive(Clone, Copy, Debug, PartialEq, Eq, PartialOrd, Ord)]
pub enum Separated {
    /// A page that these two slots share.
    Pair(u64, u64),
    /// A table page that this slot reaches.
    Table(u64),
    /// It lies in this quarter of 256 lent pages.
    Quarter(u64),
    /// Whether it may be written, by what is asked.
    Written {
        of_table: bool,
        strict: bool,
        written: bool,
    },
    /// So many of two slots have a shared page by an L1 page.
    ByL1(usize),
    /// A shared page lies in this piece of its block, which no slot has by an L1 page.
    Piece(u64),
    /// Of an L1 entry, this field alone is at fault.
    Field(u64),
    /// A page at fault is the first of the address space, or the last.
    FirstPage {
        of_table: bool,
    },
    LastPage {
        of_table: bool,
    },
    /// A page is at fault in both ways: a table's is told.
    BothWays,
    /// A lower slot has the page open too and only reads it, so that it is passed over.
    ReaderBelow {
        of_table: bool,
    },
    /// Two slots share a lent page that is free.
    FreeShared,
    /// Slots reach free lent pages, and all are kept apart.
    FreeOpen,
    /// Kept apart where domains may share what none may write, and not where they may not.
    OnlyStrict {
        of_table: bool,
    },
    /// Without the fault that was told, one further up is: of a table page, then a shared one; and the other way round.
    Next {
        of_table: bool,
    },
}

const EACH: [bool; 2] = [false, true];

impl Separated {
    pub fn all() -> impl Iterator<Item = Separated> {
        let pairs = (0..8).flat_map(|slot| (slot + 1..8).map(move |other| Separated::Pair(slot, other)));
        let tables = (0..8).map(Separated::Table).chain((0..4).map(Separated::Quarter));
        let both = EACH.map(|of_table| Separated::Written { of_table, strict: true, written: false });
        let written = EACH
            .into_iter()
            .flat_map(|of_table| EACH.map(|strict| Separated::Written { of_table, strict, written: true }));
        let places = (0..3).map(Separated::ByL1);
        let pieces = (0..16).map(Separated::Piece).chain((0..16).map(Separated::Field));
        let by_way = EACH.into_iter().flat_map(|of_table| {
            [
                Separated::LastPage { of_table },
                Separated::ReaderBelow { of_table },
                Separated::OnlyStrict { of_table },
                Separated::Next { of_table },
            ]
        });
        // page 0 is never lent
        let others =
            [Separated::FirstPage { of_table: false }, Separated::BothWays, Separated::FreeShared, Separated::FreeOpen];
        pairs.chain(tables).chain(written).chain(both).chain(places).chain(pieces).chain(by_way).chain(others)
    }

    /// What an answer and its table are.
    pub fn of(table: &Table, strength: Strength, answer: Separation) -> Vec<Separated> {
        let strict = strength == Strength::Strict;
        match answer {
            Separation::Apart if free_is_open(table, strength) => vec![Separated::FreeOpen],
            Separation::Apart => Vec::new(),
            Separation::TableOpen { page, slot, written } => {
                let row = Row::of(table, page);
                let quarter = (page.0 - table.frame().first.0) / 64;
                let mut all = vec![Separated::Table(slot.0), Separated::Quarter(quarter)];
                all.push(Separated::Written { of_table: true, strict, written });
                all.extend(row.at_the_end(table, true));
                all.extend(row.is_shared(strength).then_some(Separated::BothWays));
                let below = (0..slot.0).any(|each| row.is_open(each));
                all.extend(below.then_some(Separated::ReaderBelow { of_table: true }));
                all
            }
            Separation::PageShared { page, slot, other, written } => {
                let mut all =
                    vec![Separated::Pair(slot.0, other.0), Separated::Written { of_table: false, strict, written }];
                all.extend(shared(table, strength, page, [slot, other]));
                all
            }
        }
    }

    /// The table of the summary, the row and the column.
    pub fn place(self) -> (&'static str, String, String) {
        let way = |of_table: bool| if of_table { "a table page" } else { "a shared page" }.to_string();
        let beside = |row: &str, of_table: bool| ("not apart, and what else is so", row.to_string(), way(of_table));
        match self {
            Separated::Pair(slot, other) => ("pages shared by two slots", slot.to_string(), other.to_string()),
            Separated::Table(slot) => ("table pages that a slot reaches", String::new(), format!("slot {slot}")),
            Separated::Quarter(quarter) => {
                let (from, to) = (64 * quarter, 64 * quarter + 63);
                ("table pages that a slot reaches: lent page", String::new(), format!("{from}-{to}"))
            }
            Separated::Written { of_table, strict, written } => {
                let strength = if strict { "strict" } else { "sharing" };
                let row = format!("{strength}, {}", if written { "written" } else { "only read" });
                ("not apart", row, way(of_table))
            }
            Separated::ByL1(count) => {
                ("shared pages: slots of the two that have an L1 page", String::new(), count.to_string())
            }
            Separated::Piece(nth) => ("shared pages by pieces", String::new(), nth.to_string()),
            Separated::Field(nth) => ("shared pages, one field of an L1 entry alone", String::new(), nth.to_string()),
            Separated::FirstPage { of_table } => beside("the first page of the address space", of_table),
            Separated::LastPage { of_table } => beside("the last page of the address space", of_table),
            Separated::BothWays => beside("at fault in both ways", true),
            Separated::ReaderBelow { of_table } => beside("a lower slot that only reads", of_table),
            Separated::FreeShared => beside("a lent page that is free", false),
            Separated::OnlyStrict { of_table } => beside("kept apart by the weaker test", of_table),
            Separated::Next { of_table } => beside("after it one of the other kind", of_table),
            Separated::FreeOpen => ("apart", "free lent pages are open".to_string(), String::new()),
        }
    }
}

fn shared(table: &Table, strength: Strength, page: PageNumber, two: [Slot; 2]) -> Vec<Separated> {
    let row = Row::of(table, page);
    let block = (page.0 >> 13) as usize;
    let in_l1 = |slot: Slot| {
        let entries = entries(table, Register(table.slots()[slot.0 as usize]));
        entries.map_or(false, |entries| linked(entries[block]).is_some())
    };
    let any_l1 = (0..8).any(|slot| in_l1(Slot(slot)));
    let place = match any_l1 {
        true => alone_in_entry(table, strength, page).then_some(Separated::Field(page.0 & 15)),
        false => Some(Separated::Piece(page.0 >> 9 & 15)),
    };
    let first = table.frame().first.0;
    let is_lent = (first..first + pages(table) as u64).contains(&page.0);
    let free = is_lent && used_pages(table).map_or(false, |used| !used.contains(&page.0));
    let reader = (two[0].0 + 1..two[1].0).any(|slot| row.is_open(slot));
    let count = two.into_iter().filter(|slot| in_l1(*slot)).count();
    let mut all = vec![Separated::ByL1(count)];
    all.extend(place);
    all.extend(row.at_the_end(table, false));
    all.extend(free.then_some(Separated::FreeShared));
    all.extend(reader.then_some(Separated::ReaderBelow { of_table: false }));
    all
}

fn alone_in_entry(table: &Table, strength: Strength, page: PageNumber) -> bool {
    let beside = (0..16).map(|nth| PageNumber(page.0 & !15 | nth));
    beside.filter(|page| Row::of(table, *page).is_shared(strength)).count() == 1
}

fn free_is_open(table: &Table, strength: Strength) -> bool {
    let (first, used) = (table.frame().first.0, used_pages(table).unwrap_or_default());
    let mut free = (first..first + pages(table) as u64).filter(|page| !used.contains(page));
    free.any(|page| Row::of(table, PageNumber(page)).is_reached(strength))
}

/// What each slot may do with a page of a sound table.
struct Row {
    page: PageNumber,
    each: [u8; 8],
}

impl Row {
    fn of(table: &Table, page: PageNumber) -> Row {
        let permission = |register: Register| {
            let at = second::permission_at(frame(table), table.words(), register.root().0, page.0 << 12);
            at.expect("a sound table's walks end")
        };
        let each = table.slots().map(|register| if register == 0 { 0 } else { permission(Register(register)) });
        Row { page, each }
    }

    fn is_open(&self, slot: u64) -> bool {
        self.each[slot as usize] != 0
    }

    fn is_reached(&self, strength: Strength) -> bool {
        self.each.iter().any(|&permission| permission > if strength == Strength::Strict { 0 } else { 1 })
    }

    fn is_shared(&self, strength: Strength) -> bool {
        self.each.iter().filter(|&&permission| permission != 0).count() > 1 && self.is_reached(strength)
    }

    fn at_the_end(&self, table: &Table, of_table: bool) -> Option<Separated> {
        let last = (1u64 << (table.frame().paw - 12)) - 1;
        match self.page.0 {
            0 => Some(Separated::FirstPage { of_table }),
            page if page == last => Some(Separated::LastPage { of_table }),
            _ => None,
        }
    }
}

#[cfg(test)]
mod tests {
    use super::*;
    use crate::answer::{Outcome, Reply};
    use crate::command::{parse, Command};
    use crate::programs::SECOND;
    use crate::sides::Sides;
    use mpt_monitor::Answer;

    #[test]
    fn what_a_few_answers_are() {
        let mut sides = Sides::new(&[SECOND]);
        let mut met = |line: &str| -> Vec<Separated> {
            let command = parse(line).unwrap().unwrap();
            let outcome = sides.obey(&command);
            match (command, outcome) {
                (Command::Apart(strength), Outcome::Answer(Reply::Call(Answer::Tested(separation)))) => {
                    Separated::of(sides.table().unwrap(), strength, separation)
                }
                _ => Vec::new(),
            }
        };
        // the lent pages are the last eight of the address space, and the roots pages 0x7fff8 to 0x7fffa
        for line in ["frame 31 0x7FFF8 8", "open 0 1", "open 2 2", "open 5 3", "apart", "apart strict"] {
            assert_eq!(met(line), [], "{line}");
        }
        // slot 0 reads and slot 5 writes all of block 1, and slot 2 reads one page of it, in field 3
        assert_eq!((met("poke 1 0x100000000000"), met("poke 1025 0x200000000000")), (vec![], vec![]));
        let written = |of_table, strict, written| Separated::Written { of_table, strict, written };
        let pair = [Separated::Pair(0, 5), written(false, false, true), Separated::ByL1(0), Separated::Piece(0)];
        assert_eq!(met("apart"), pair);
        assert_eq!(met("edit 2 0x2003000 0x1000 rx 1536"), []);
        assert_eq!(met("apart"), [Separated::Pair(0, 5), written(false, false, true), Separated::ByL1(0)]);
        assert_eq!((met("poke 1 0x0"), met("poke 0 0x100000000000")), (vec![], vec![]));
        let pair = [Separated::Pair(2, 5), written(false, true, true), Separated::ByL1(1), Separated::Field(3)];
        assert_eq!(met("apart strict"), pair);
        assert_eq!(met("poke 1025 0x0"), []);
        // block 63 holds the table: slot 2 reads it, and slot 5 writes the first lent page, field 8 of the last entry of an L1 page
        for line in ["poke 575 0x100000000000", "poke 1087 0x40000007FFFC", "poke 2559 0x200000000"] {
            assert_eq!(met(line), []);
        }
        let both = [
            Separated::Table(5),
            Separated::Quarter(0),
            written(true, false, true),
            Separated::BothWays,
            Separated::ReaderBelow { of_table: true },
        ];
        assert_eq!(met("apart"), both);
        let strict = [Separated::Pair(2, 5), written(false, true, true), Separated::ByL1(0), Separated::Piece(15)];
        assert_eq!((met("poke 1087 0x0"), met("poke 575 0x0")), (vec![], vec![]));
        assert_eq!(met("apart"), []);
        assert_eq!((met("poke 1081 0x600080000000"), met("poke 569 0x100000000000")), (vec![], vec![]));
        assert_eq!(met("apart strict"), strict);
    }

    #[test]
    fn every_class_has_a_place_of_its_own() {
        let mut places: Vec<_> = Separated::all().map(Separated::place).collect();
        let count = places.len();
        places.sort();
        places.dedup();
        // 28 pairs, 8 slots, 4 quarters, 6 of what is written, 3 by L1 pages, 16 pieces, 16 fields, 8 of both kinds, 4 others
        assert_eq!((places.len(), count), (93, 93));
    }
}
