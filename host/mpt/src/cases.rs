//! `mpt cases`: the bench cases of document 01 and the one that item 3 of document 02 adds, with the papers' own answers, and
//! ours for items 3, 6 and 13.

mod list;

use crate::answer::{Outcome, Reply};
use crate::command::parse;
use crate::options::Options;
use crate::output;
use crate::programs::{proved_or, Program, PLAIN, SECOND};
use crate::sides::Sides;
use list::{Case, Paper, Step, CASES, OPENED};
use mpt_monitor::Answer;

pub fn main(mut options: Options) -> Result<u8, String> {
    let programs = options.programs(|| vec![proved_or(PLAIN), SECOND])?;
    options.end()?;
    let mut wrong = 0;
    print_row("", "asked", "the papers", programs.iter().map(|program| program.name.to_string()));
    for case in &CASES {
        for (name, (asked, paper), outcomes) in run(case, &programs) {
            let right = outcomes.iter().all(|outcome| is_paper(outcome, paper));
            wrong += usize::from(!right);
            output::failed(u8::from(wrong > 0));
            print_row(name, asked, &shortened(&paper.reply()), outcomes.iter().map(text));
            if !right {
                output::line("   ^ differs from the papers");
            }
        }
    }
    match wrong {
        0 => output::line("every answer is the papers', or follows from them"),
        _ => output::line(format!("{wrong} answers differ")),
    }
    Ok(u8::from(wrong > 0))
}

fn print_row(case: &str, asked: &str, paper: &str, answers: impl Iterator<Item = String>) {
    let answers: Vec<String> = answers.map(|answer| format!("{answer:<40}")).collect();
    let row = format!("{case:<2} {asked:<37} {paper:<40} {}", answers.join(" "));
    output::line(row.trim_end());
}

fn is_paper(outcome: &Outcome, paper: Paper) -> bool {
    matches!(outcome, Outcome::Answer(reply) if *reply == paper.reply())
}

fn text(outcome: &Outcome) -> String {
    match outcome {
        Outcome::Answer(reply) => shortened(reply),
        Outcome::Error(error) => error.to_string(),
        Outcome::Differ(how) => how.to_string(),
    }
}

/// One word many times over as `31 x WORD`.
fn shortened(reply: &Reply) -> String {
    match reply {
        Reply::Words(words) if words.len() > 1 && words.iter().all(|word| *word == words[0]) => {
            format!("{} x {}", words.len(), Reply::Words(vec![words[0]]))
        }
        _ => reply.to_string(),
    }
}

/// Each question with what came of it in each program; the case's name stands at its first.
fn run<'a>(case: &'a Case, programs: &[Program]) -> Vec<(&'a str, Step, Vec<Outcome>)> {
    let mut benches: Vec<Sides> = programs.iter().map(|&program| opened(program, case.pages)).collect();
    let names = std::iter::once(case.name).chain(std::iter::repeat(""));
    let ask = |&(asked, paper): &Step| {
        let outcomes = benches.iter_mut().map(|sides| self::ask(sides, asked)).collect();
        ((asked, paper), outcomes)
    };
    let asked: Vec<_> = case.steps.iter().map(ask).collect();
    names.zip(asked).map(|(name, (step, outcomes))| (name, step, outcomes)).collect()
}

fn opened(program: Program, pages: usize) -> Sides {
    let mut sides = Sides::new(&[program]);
    ask(&mut sides, &format!("frame 32 0x80000 {pages}"));
    let (outcome, paper) = (ask(&mut sides, "open 0 5"), Paper::Call(Answer::Opened(OPENED)));
    if !is_paper(&outcome, paper) {
        let (name, given, wanted) = (program.name, text(&outcome), paper.reply());
        output::complain(format!("{name}: `open 0 5` gave `{given}`; document 01 says `{wanted}`"));
    }
    sides
}

fn ask(sides: &mut Sides, asked: &str) -> Outcome {
    let line = match asked.strip_prefix("look ") {
        Some(rest) => {
            let (kind, address) = rest.split_once(' ').expect("a kind and an address");
            format!("lookup {OPENED} s {kind} {address}")
        }
        None => asked.to_string(),
    };
    sides.obey(&parse(&line).expect("a case is in the language of run").expect("a case is no comment"))
}

#[cfg(test)]
mod tests {
    use super::*;

    #[test]
    fn every_program_gives_the_answers_of_the_paper() {
        for case in &CASES {
            for (_, (asked, paper), outcomes) in run(case, &crate::programs::all()) {
                assert!(outcomes.iter().all(|each| is_paper(each, paper)), "{}: {asked}: {outcomes:?}", case.name);
            }
        }
    }

    #[test]
    fn only_equal_words_are_shortened() {
        assert_eq!(shortened(&Reply::Words(vec![10; 3])), "3 x 000000000000000a");
        assert_eq!(shortened(&Reply::Words(vec![10])), "000000000000000a");
        assert_eq!(shortened(&Reply::Words(vec![10, 11])), "000000000000000a 000000000000000b");
        assert_eq!(shortened(&Reply::Done), "ok");
    }
}
