//! The classes that a command and its answer are in, by what was asked and how the table stands after it.

use super::bounds::{AddressBound, FrameBound, RangeBound};
use super::class::{Asked, Class};
use super::layout::within_bounds;
use super::rules::broken_alone;
use super::separation::Separated;
use super::write_execute::WriteExecute;
use crate::answer::Reply;
use crate::command::Command;
use mpt_monitor::{Answer, Privilege, Table};

pub fn frame(table: &Table) -> Vec<Class> {
    FrameBound::of(table.frame(), table.words().len()).into_iter().map(Class::Frame).collect()
}

pub fn classes(table: &Table, command: &Command, reply: &Reply) -> Vec<Class> {
    match (command.call(), reply) {
        (Some(call), Reply::Call(answer)) => {
            let mut all = further(table, command, *answer);
            all.push(Class::of_answer(call, *answer));
            all
        }
        _ if matches!(command, Command::Frame { .. }) => frame(table),
        _ => Vec::new(),
    }
}

/// Beside the answer itself: bounds that were reached, rules that are broken, where a new page lies.
fn further(table: &Table, command: &Command, answer: Answer) -> Vec<Class> {
    let (frame, count) = (table.frame(), table.words().len());
    match (command, answer) {
        (Command::Lookup { privilege, register, address, .. }, Answer::Looked(_))
            if *privilege != Privilege::Machine && register.mode() == 1 =>
        {
            AddressBound::of(frame, count, address.0).into_iter().map(Class::Address).collect()
        }
        (Command::Edit(edit), _) => {
            // what is refused for its range or for room had all else right
            let told_by_range = match answer {
                Answer::Edited(_) => true,
                Answer::Refused(refusal) => (5..=7).contains(&refusal.number()),
                _ => false,
            };
            let ranges = if told_by_range { RangeBound::of(frame, count, *edit) } else { Vec::new() };
            let write_execute = WriteExecute::of(table, *edit, answer).into_iter().map(Class::WriteExecute);
            ranges.into_iter().map(Class::Range).chain(write_execute).collect()
        }
        (Command::Sound, Answer::Refused(_)) if within_bounds(table) => {
            broken_alone(table).into_iter().map(Class::Unsound).collect()
        }
        (Command::Apart(strength), Answer::Tested(separation)) => {
            Separated::of(table, *strength, separation).into_iter().map(Class::Separated).collect()
        }
        (Command::Open { .. }, Answer::Opened(register)) => {
            let nth = register.root().0.wrapping_sub(frame.first.0);
            vec![Class::new_page(Asked::Open, nth as usize)]
        }
        _ => Vec::new(),
    }
}

#[cfg(test)]
mod tests {
    use super::*;
    use crate::command::parse;
    use crate::programs::SECOND;
    use crate::sides::Sides;

    #[test]
    fn what_a_few_commands_meet() {
        let mut sides = Sides::new(&[SECOND]);
        let mut met = |line: &str| -> Vec<String> {
            let command = parse(line).unwrap().unwrap();
            let reply = match sides.obey(&command) {
                crate::answer::Outcome::Answer(reply) => reply,
                other => panic!("{line}: {other:?}"),
            };
            let all = classes(sides.table().unwrap(), &command, &reply);
            let mut names: Vec<String> =
                all.into_iter().map(|class| class.place()).map(|(_, row, column)| row + ": " + &column).collect();
            names.sort();
            names
        };
        assert_eq!(met("frame 34 0x80000 2"), ["PAW: highest", "pages: lowest"]);
        assert_eq!(met("open 0 5"), ["open: done", "open: page 0-63"]);
        assert_eq!(met("edit 0 0x80001000 0x2000 rw 9"), ["begins with the last lent page: rx, rw, rwx", "edit: 6"]);
        assert_eq!(
            met("lookup 0x1140000000080000 s load 0x400000000"),
            ["2^PAW: the first byte of", "lookup: fault 5"]
        );
        assert_eq!(met("lookup 0x1140000000080000 m load 0x400000000"), ["lookup: allowed"]);
        assert_eq!(met("poke 7 0x500000000000"), Vec::<String>::new());
        assert_eq!(met("sound"), ["TYPE 5 or 7: ", "sound: 3"]);
    }
}
