//! `mpt test`: random sequences of calls on all programs at hand.

mod aim;
mod bounds;
mod class;
mod cuts;
mod damage;
mod edits;
mod forms;
mod frames;
mod generate;
mod layout;
mod met;
mod outside;
mod places;
mod planted;
mod reading;
mod report;
mod reserved;
mod rules;
mod segments;
mod separation;
mod sequence;
mod start;
mod sweep;
mod tally;
mod trial;
mod workers;
mod write_execute;

use crate::options::Options;
use crate::output;
use crate::programs;
use crate::run::DIFFERENT;
use std::io::Write;
use std::thread::available_parallelism;
use std::time::{Instant, SystemTime};
use workers::Plan;

/// Calls made on each program if no --count is given.
const COUNT: u64 = 200_000;

pub fn main(mut options: Options) -> Result<u8, String> {
    let seed = options.number("--seed")?.unwrap_or_else(seed_of_the_clock);
    let sequence = options.number("--sequence")?;
    let count = options.number("--count")?.unwrap_or(if sequence.is_some() { 0 } else { COUNT });
    let cores = available_parallelism().map_or(1, |cores| cores.get() as u64);
    let threads = options.number("--threads")?.unwrap_or(cores).clamp(1, 64) as usize;
    options.end()?;
    let names: Vec<&str> = programs::all().iter().map(|program| program.name).collect();
    let asked = match sequence {
        Some(sequence) => format!("sequence {sequence}"),
        None => format!("{count} calls"),
    };
    output::line(format!("seed {seed}: {asked} on each of {}", names.join(", ")));
    let start = Instant::now();
    let threads = if sequence.is_some() { 1 } else { threads };
    let plan = Plan { seed, from: sequence.unwrap_or(0), count, threads };
    let (tally, failed) = workers::run(programs::all, plan, |calls| show_progress(calls, count));
    let (status, lines) = match failed {
        Some(failed) => (DIFFERENT, report::failed(seed, &tally, &failed)),
        None => report::passed(&tally, count, start.elapsed().as_secs_f64()),
    };
    if status != 0 {
        output::failed(status);
    }
    lines.iter().for_each(output::line);
    Ok(status)
}

fn seed_of_the_clock() -> u64 {
    let now = SystemTime::now().duration_since(SystemTime::UNIX_EPOCH);
    now.map_or(1, |since| since.as_nanos() as u64 >> 10 & 0xFFFF_FFFF)
}

fn show_progress(calls: u64, count: u64) {
    if output::is_terminal(2) {
        let done = (calls.min(count) * 40 / count.max(1)) as usize;
        let end = if calls >= count { "\n" } else { "" };
        let _ = write!(
            std::io::stderr(),
            "\r[{}{}] {calls} of {count} calls{end}",
            "#".repeat(done),
            "-".repeat(40 - done)
        );
    }
}
