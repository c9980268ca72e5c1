//! `mpt bench`: the proved program beside ordinary safe Rust, in the same run.

mod marking;
mod measure;
mod work;

use crate::options::Options;
use crate::output;
use crate::programs::Plain;
use measure::{clock, measure, Row};
use mpt_monitor::{Answer, Interface, Reading, View, ViewMut, Writing};
use work::{Batches, Work};

/// What is measured, or what it is measured by.
#[derive(Clone, Copy)]
pub struct Subject {
    name: &'static str,
    program: &'static dyn Batches,
}

const PLAIN: Subject = Subject { name: "plain", program: &Plain };
#[cfg(feature = "proved")]
const PROVED: Option<Subject> = Some(Subject { name: "proved", program: &mpt_monitor::Proved });
#[cfg(not(feature = "proved"))]
const PROVED: Option<Subject> = None;

/// Rounds of each measurement if no --rounds is given.
const ROUNDS: u64 = 401;

pub fn main(mut options: Options) -> Result<u8, String> {
    let rounds = options.number("--rounds")?.unwrap_or(ROUNDS).clamp(1, 1_000_000) as usize;
    let itself = options.flag("--plain");
    options.end()?;
    let subject = match PROVED {
        _ if itself => PLAIN,
        Some(proved) => proved,
        None => return Err("`mpt bench` measures the proved library, and this mpt was built without the feature `proved` (--plain measures plain Rust against itself)".to_string()),
    };
    output::line(format!("{rounds} rounds, medians; {} beside ordinary safe Rust", subject.name));
    output::line(format!("{:<56} {:>12} {:>12} {:>7}", "", subject.name, "plain", "ratio"));
    let mut ratios = Vec::new();
    calls(subject, rounds, &mut ratios)?;
    apart(subject, rounds, &mut ratios)?;
    edits(subject, rounds, &mut ratios)?;
    marking::edits(subject, rounds, &mut ratios)?;
    ratios.iter().for_each(|(name, ratio)| output::line(format!("ratio {name} {ratio:.3}")));
    Ok(0)
}

type Ratios = Vec<(String, f64)>;

/// Lookup, the whole-table check by two yardsticks, open and close: the whole call.
fn calls(subject: Subject, rounds: usize, ratios: &mut Ratios) -> Result<(), String> {
    let obvious = Subject { name: "obvious", program: &Obvious };
    let works = [
        ("lookup", work::lookup(), PLAIN),
        ("check-tuned", work::largest(), PLAIN),
        ("check-obvious", work::largest(), obvious),
        ("open", work::open(), PLAIN),
        ("close", work::close(), PLAIN),
    ];
    for (name, work, yardstick) in works {
        let row = measured(&work, subject, yardstick, rounds)?;
        line(name, work.what, row.call);
        ratios.push((name.to_string(), row.ratio()));
    }
    Ok(())
}

/// Whether domains are kept apart: the whole call, and without the whole-table check that both make.
fn apart(subject: Subject, rounds: usize, ratios: &mut Ratios) -> Result<(), String> {
    for work in work::apart() {
        let row = measured(&work, subject, PLAIN, rounds)?;
        line(work.name, work.what, row.call);
        line("", "  beyond the whole-table check", row.beyond);
        ratios.push((work.name.to_string(), row.ratio()));
        ratios.push((format!("{}-beyond-check", work.name), row.ratio_beyond()));
    }
    Ok(())
}

/// The edits: the whole call, and without the whole-table check that both make.
fn edits(subject: Subject, rounds: usize, ratios: &mut Ratios) -> Result<(), String> {
    for work in work::edits() {
        let row = measured(&work, subject, PLAIN, rounds)?;
        line(work.name, work.what, row.call);
        line("", "  beyond the whole-table check", row.beyond);
        ratios.push((work.name.to_string(), row.ratio_beyond()));
        ratios.push((format!("{}-with-check", work.name), row.ratio()));
    }
    Ok(())
}

fn measured(work: &Work, subject: Subject, yardstick: Subject, rounds: usize) -> Result<Row, String> {
    work::check_agreement(work, subject, yardstick)?;
    Ok(measure(work, subject.program, yardstick.program, rounds, &clock()))
}

fn line(name: &str, what: &str, [subject, plain]: [f64; 2]) {
    let what = if name.is_empty() { what.to_string() } else { format!("{name}: {what}") };
    output::line(format!("{what:<56} {:>12} {:>12} {:>7.2}", time(subject), time(plain), subject / plain));
}

fn time(nanoseconds: f64) -> String {
    if nanoseconds < 10_000.0 {
        format!("{nanoseconds:.1} ns")
    } else {
        format!("{:.2} us", nanoseconds / 1000.0)
    }
}

/// Plain, with the obvious whole-table check in place of the tuned one.
struct Obvious;

impl Interface for Obvious {
    fn read(&self, table: View<'_>, call: Reading) -> Answer {
        let View { frame, words, slots } = table;
        match call {
            Reading::Sound => {
                let frame = plain::Frame { paw: frame.paw, first: frame.first.0 };
                plain::sound_obvious(frame, words, slots).map_or_else(Answer::refused, |()| Answer::Sound)
            }
            _ => Plain.read(table, call),
        }
    }

    fn write(&self, table: ViewMut<'_>, call: Writing) -> Answer {
        Plain.write(table, call)
    }
}
