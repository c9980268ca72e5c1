//! The commands of a script that were refused or cut.

use crate::answer::{Outcome, Reply};
use crate::command::Command;
use crate::run::Line;
use mpt_monitor::{Answer, Edit};

/// A command that was not done, or not all of it.
#[derive(Clone, Debug, PartialEq, Eq)]
pub struct Undone {
    /// The number of its line, from 1.
    pub line: usize,
    pub command: String,
    pub why: String,
}

/// All of them, in order.
pub fn undone(lines: &[Line]) -> Vec<Undone> {
    let one = |(nth, line): (usize, &Line)| {
        let command = line.command.as_ref()?;
        let why = why(command, &line.outcome, &lines[nth + 1..])?;
        Some(Undone { line: line.number, command: command.to_string(), why })
    };
    lines.iter().enumerate().filter_map(one).collect()
}

fn why(command: &Command, outcome: &Outcome, later: &[Line]) -> Option<String> {
    let answer = match outcome {
        Outcome::Answer(Reply::Call(answer)) => answer,
        _ => return None,
    };
    match (answer, command) {
        (Answer::Refused(refusal), _) => Some(format!("refused {}: {refusal}", refusal.number())),
        (Answer::Edited(edited), Command::Edit(edit)) if !edited.all => {
            let end = match later.iter().find(|line| finishes(line, edit)) {
                Some(line) => format!("line {} finished it", line.number),
                None => "it is not finished".to_string(),
            };
            Some(format!("cut after {} stores; {end}", edited.stores))
        }
        (Answer::OutsideKind | Answer::Unknown(_), _) => Some(Reply::Call(*answer).to_string()),
        _ => None,
    }
}

/// Whether a line is the same edit, with all its stores made.
fn finishes(line: &Line, edit: &Edit) -> bool {
    let same = matches!(&line.command, Some(Command::Edit(other)) if Edit { limit: edit.limit, ..*other } == *edit);
    let all = matches!(&line.outcome, Outcome::Answer(reply) if reply.edited().map_or(false, |edited| edited.all));
    same && all
}

#[cfg(test)]
mod tests {
    use super::*;
    use crate::command::parse;
    use crate::programs::SECOND;
    use crate::sides::Sides;

    #[test]
    fn refused_and_cut_commands_are_named() {
        let commands = [
            "frame 32 0x80000 16",
            "open 0 5",
            "open 0 6",
            "edit 0 0x40000000 0x1000 rw 7",
            "edit 0 0x40000000 0x1000 rw 1536",
            "edit 0 0x80000000 0x1000 rx 1536",
            "edit 0 0x40003000 0x1000 rx 0",
            "lookup 0x5 s load 0",
        ];
        let mut sides = Sides::new(&[SECOND]);
        let line = |(nth, text): (usize, &&str)| {
            let command = parse(text).unwrap().unwrap();
            let outcome = sides.obey(&command);
            Line { number: nth + 1, command: Some(command), outcome }
        };
        let lines: Vec<Line> = commands.iter().enumerate().map(line).collect();
        let undone = undone(&lines);
        let got: Vec<(usize, &str)> = undone.iter().map(|each| (each.line, each.why.as_str())).collect();
        let wanted = [
            (3, "refused 4: the slot is above 7, or empty, or in use already"),
            (4, "cut after 7 stores; line 5 finished it"),
            (6, "refused 6: the range meets the lent pages"),
            (7, "cut after 0 stores; it is not finished"),
            (8, "refused 2: the register's MODE is above 1, or it is Bare with PPN or SDID not zero"),
        ];
        assert_eq!(got, wanted);
        assert_eq!(undone[0].command, "open 0 6");
    }
}
