//! The state of `mpt run`: one table for each program that runs, kept side by side.

use crate::answer::{Difference, Error, Free, Outcome, Reply};
use crate::command::Command;
use crate::image;
use crate::programs::Program;
use mpt_monitor::{Frame, Table, PAGE_WORDS, SLOTS};
use std::fs;

/// One or more programs, each with its own table.
#[derive(Clone)]
pub struct Sides {
    sides: Vec<Side>,
}

#[derive(Clone)]
struct Side {
    program: Program,
    table: Option<Table>,
}

impl Sides {
    pub fn new(programs: &[Program]) -> Sides {
        let side = |&program: &Program| Side { program, table: None };
        Sides { sides: programs.iter().map(side).collect() }
    }

    /// The first program's table.
    pub fn table(&self) -> Option<&Table> {
        self.sides[0].table.as_ref()
    }

    /// Gives every side a copy of this table.
    pub fn set(&mut self, table: &Table) {
        for side in &mut self.sides {
            side.table = Some(table.clone());
        }
    }

    /// Obeys on every side, and compares the answers and then every word and slot.
    pub fn obey(&mut self, command: &Command) -> Outcome {
        let first = self.sides[0].obey(command);
        let others: Vec<_> = self.sides[1..].iter_mut().map(|side| side.obey(command)).collect();
        if others.iter().any(|other| *other != first) {
            let names = self.sides.iter().map(|side| side.program.name);
            return Outcome::Differ(Difference::Answers(names.zip(std::iter::once(first).chain(others)).collect()));
        }
        // a write past the monitor is the same on all sides, so that only a call can make them differ
        match (command.call().and_then(|_| self.tables_differ()), first) {
            (Some(difference), _) => Outcome::Differ(difference),
            (None, Ok(reply)) => Outcome::Answer(reply),
            (None, Err(error)) => Outcome::Error(error),
        }
    }

    fn tables_differ(&self) -> Option<Difference> {
        let one = &self.sides[0];
        let other = self.sides.iter().find(|side| side.table != one.table)?;
        Some(first_difference([one.program.name, other.program.name], [one.table.as_ref()?, other.table.as_ref()?]))
    }
}

/// Where two tables that differ do so first.
fn first_difference([one, other]: [&'static str; 2], [left, right]: [&Table; 2]) -> Difference {
    let at = |left: &[u64], right: &[u64]| left.iter().zip(right).position(|(a, b)| a != b);
    if let Some(index) = at(left.slots(), right.slots()) {
        return Difference::Slot { index, is: [(one, left.slots()[index]), (other, right.slots()[index])] };
    }
    match at(left.words(), right.words()) {
        Some(index) => Difference::Word { index, is: [(one, left.words()[index]), (other, right.words()[index])] },
        None => Difference::Length([(one, left.words().len()), (other, right.words().len())]),
    }
}

impl Side {
    fn obey(&mut self, command: &Command) -> Result<Reply, Error> {
        if let Command::Frame { paw, first, pages, extra } = *command {
            let words = vec![0; pages * PAGE_WORDS + extra];
            self.table = Some(Table::from_parts(Frame { paw, first }, words, [0; SLOTS]));
            return Ok(Reply::Done);
        }
        let table = self.table.as_mut().ok_or(Error::NoFrame)?;
        match command.call() {
            Some(call) => Ok(Reply::Call(self.program.monitor().call(table, call))),
            None => past_the_monitor(table, command),
        }
    }
}

/// Reads and writes past the monitor.
fn past_the_monitor(table: &mut Table, command: &Command) -> Result<Reply, Error> {
    match command {
        Command::Poke { index, word } => poke(table, *index, *word),
        Command::SetSlot { index, register } => {
            table.slots_mut()[*index] = register.0;
            Ok(Reply::Done)
        }
        Command::Peek { index, count } => peek(table, *index, *count),
        Command::Slots => Ok(Reply::Words(table.slots().to_vec())),
        Command::Sum => Ok(Reply::Sum(image::sum(table))),
        Command::Free => Ok(Reply::Free(free(table))),
        Command::Load(file) => load(table, file),
        Command::Save(file) => save(table, file),
        _ => unreachable!("a frame is made before, and the others are calls"),
    }
}

fn poke(table: &mut Table, index: usize, word: u64) -> Result<Reply, Error> {
    let count = table.words().len();
    let place = table.words_mut().get_mut(index).ok_or(Error::Outside { index, many: 1, count })?;
    *place = word;
    Ok(Reply::Done)
}

fn peek(table: &Table, index: usize, many: usize) -> Result<Reply, Error> {
    if many == 0 {
        return Err(Error::NoCount);
    }
    let words = table.words().get(index..index.saturating_add(many));
    let outside = Error::Outside { index, many, count: table.words().len() };
    words.map(|words| Reply::Words(words.to_vec())).ok_or(outside)
}

fn load(table: &mut Table, file: &str) -> Result<Reply, Error> {
    let error = |why| Error::File { file: file.to_string(), why };
    let bytes = fs::read(file).map_err(|why| error(why.to_string()))?;
    *table = image::from_bytes(table.frame(), &bytes).map_err(error)?;
    Ok(Reply::Done)
}

fn save(table: &Table, file: &str) -> Result<Reply, Error> {
    let error = |why: std::io::Error| Error::File { file: file.to_string(), why: why.to_string() };
    fs::write(file, image::to_bytes(table)).map_err(error)?;
    Ok(Reply::Done)
}

/// The number of free pages, by the second program's reading of the table.
fn free(table: &Table) -> Free {
    let frame = second::Frame { paw: table.frame().paw, first: table.frame().first.0 };
    if !frame.within_bounds(table.words()) {
        return Free::BadFrame;
    }
    match second::used_pages(frame, table.words(), table.slots()) {
        Some(used) => Free::Pages(table.words().len() / PAGE_WORDS - used.len()),
        None => Free::NotSound,
    }
}

#[cfg(test)]
mod tests {
    use super::*;
    use crate::command::parse;
    use crate::programs::{PLAIN, SECOND};
    use mpt_monitor::{Answer, Edited, Interface, Reading, Separation, View, ViewMut, Writing};

    fn run(sides: &mut Sides, line: &str) -> Outcome {
        sides.obey(&parse(line).unwrap().unwrap())
    }

    #[test]
    fn commands_before_a_frame_are_errors() {
        let mut sides = Sides::new(&[SECOND]);
        assert_eq!(run(&mut sides, "sum"), Outcome::Error(Error::NoFrame));
    }

    #[test]
    fn raw_reads_and_writes() {
        let mut sides = Sides::new(&[SECOND, PLAIN]);
        let mut expect = |line: &str, text: &str| match run(&mut sides, line) {
            Outcome::Answer(reply) => assert_eq!(reply.to_string(), text, "{line}"),
            other => panic!("{line}: {other:?}"),
        };
        expect("frame 32 0x80000 2", "ok");
        // by zlib, over 64 + 8,192 zero bytes
        expect("sum", "45d57ebb");
        expect("poke 1023 0xfedcba9876543210", "ok");
        expect("peek 1022 2", "0000000000000000 fedcba9876543210");
        expect("slot 7 1", "ok");
        expect("slots", &("0000000000000000 ".repeat(7) + "0000000000000001"));
        expect("open 0 5", "refused 3");
        expect("sound", "refused 3");
        expect("slot 7 0", "ok");
        expect("open 0 5", "opened 0x1140000000080000");
        expect("free", "free 1");
        expect("sound", "sound");
        expect("close 0", "closed fence domain 5");
        for line in ["poke 1024 0", "peek 1023 2", "peek 0 0", "peek 18446744073709551615 2"] {
            assert!(matches!(run(&mut sides, line), Outcome::Error(_)), "{line}");
        }
    }

    /// A program with a slip in its store count, one in what an open writes, and one in whether a shared page may be written.
    struct Miscounts;

    impl Interface for Miscounts {
        fn read(&self, table: View<'_>, call: Reading) -> Answer {
            match PLAIN.interface.read(table, call) {
                Answer::Tested(Separation::PageShared { page, slot, other, written }) => {
                    Answer::Tested(Separation::PageShared { page, slot, other, written: !written })
                }
                answer => answer,
            }
        }

        fn write(&self, table: ViewMut<'_>, call: Writing) -> Answer {
            if let Writing::Open { slot, .. } = call {
                table.words[600] = slot.0;
            }
            match PLAIN.interface.write(table, call) {
                Answer::Edited(edited) => Answer::Edited(Edited { stores: edited.stores + 1, ..edited }),
                other => other,
            }
        }
    }

    #[test]
    fn a_difference_is_seen_in_the_answer_and_in_the_words() {
        let slip = Program { name: "slip", interface: &Miscounts };
        let mut sides = Sides::new(&[slip, SECOND]);
        run(&mut sides, "frame 32 0x80000 2");
        run(&mut sides, "open 0 5");
        let edit = run(&mut sides, "edit 0 0x40000000 0x40000000 rw 7");
        let both = "slip: edited 8 part fence domain 5\nsecond: edited 7 part fence domain 5";
        assert!(matches!(edit, Outcome::Differ(how) if how.to_string() == both));
        run(&mut sides, "frame 32 0x80000 2");
        let is = [("slip", 3), ("second", 0)];
        let word = Difference::Word { index: 600, is };
        assert_eq!(word.to_string(), "slip: word 600 is 0000000000000003\nsecond: word 600 is 0000000000000000");
        assert_eq!(run(&mut sides, "open 3 5"), Outcome::Differ(word));
    }

    #[test]
    fn a_difference_that_no_answer_line_tells_is_told() {
        let slip = Program { name: "slip", interface: &Miscounts };
        let mut sides = Sides::new(&[slip, SECOND]);
        // roots are the two pages, and entry 0 of both is rx
        let slots = ["frame 32 0x80000 2", "slot 0 0x1000000000080000", "slot 1 0x1040000000080001"];
        for line in slots.into_iter().chain(["poke 0 0x100000000000", "poke 512 0x100000000000"]) {
            run(&mut sides, line);
        }
        let both = "slip: shared 0x0 0 1 (which may be written)\nsecond: shared 0x0 0 1 (which may not be written)";
        let apart = run(&mut sides, "apart strict");
        assert!(matches!(&apart, Outcome::Differ(how) if how.to_string() == both), "{apart:?}");
    }
}
