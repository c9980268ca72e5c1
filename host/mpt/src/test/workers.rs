//! Sequences on all cores. What comes of them is taken in the order of their numbers, so that a run
//! says the same on any number of cores.

use super::sequence;
use super::tally::Tally;
use super::trial::{catching_panics, Failure};
use crate::programs::Program;
use crate::random::Random;
use std::collections::BTreeMap;
use std::sync::atomic::{AtomicBool, AtomicU64, Ordering};
use std::sync::mpsc::{sync_channel, SyncSender};
use std::thread;

/// What makes the programs at hand; each thread has its own.
pub type Programs = fn() -> Vec<Program>;

/// A sequence that failed, and what those before it met.
#[derive(Debug)]
pub struct Failed {
    pub sequence: u64,
    pub failure: Failure,
}

/// Which sequences: those of a seed, from a number on, until so many calls are made.
#[derive(Clone, Copy, Debug)]
pub struct Plan {
    pub seed: u64,
    pub from: u64,
    pub count: u64,
    pub threads: usize,
}

type Outcome = (u64, Result<Tally, Failure>);

/// Runs until the calls are made or a sequence fails; `progress` hears how many are made.
pub fn run(programs: Programs, plan: Plan, mut progress: impl FnMut(u64)) -> (Tally, Option<Failed>) {
    let (next, stop) = (AtomicU64::new(plan.from), AtomicBool::new(false));
    thread::scope(|scope| {
        let (sender, receiver) = sync_channel::<Outcome>(64);
        for _ in 0..plan.threads {
            let sender = sender.clone();
            let (next, stop) = (&next, &stop);
            scope.spawn(move || work(programs, plan.seed, next, stop, &sender));
        }
        drop(sender);
        let mut early = BTreeMap::new();
        let mut tally = Tally::default();
        let mut due = plan.from;
        while let Ok((sequence, outcome)) = receiver.recv() {
            early.insert(sequence, outcome);
            while let Some(outcome) = early.remove(&due) {
                let failed = match outcome {
                    Ok(met) => {
                        tally.add(&met);
                        None
                    }
                    Err(failure) => Some(Failed { sequence: due, failure }),
                };
                progress(tally.calls);
                if failed.is_some() || tally.calls >= plan.count {
                    stop.store(true, Ordering::Relaxed);
                    return (tally, failed);
                }
                due += 1;
            }
        }
        unreachable!("the threads work until they are told to stop")
    })
}

/// One thread: the next sequence, until it is told to stop or nobody hears.
fn work(programs: Programs, seed: u64, next: &AtomicU64, stop: &AtomicBool, sender: &SyncSender<Outcome>) {
    let programs = programs();
    while !stop.load(Ordering::Relaxed) {
        let sequence = next.fetch_add(1, Ordering::Relaxed);
        let outcome = catching_panics(|| sequence::run(&programs, &mut Random::new(seed, sequence)));
        if sender.send((sequence, outcome)).is_err() {
            return;
        }
    }
}

#[cfg(test)]
mod tests {
    use super::*;
    use crate::programs::{PLAIN, SECOND};

    #[test]
    fn a_run_says_the_same_on_any_number_of_threads() {
        let plan = |threads| Plan { seed: 1, from: 0, count: 400, threads };
        let programs: Programs = || vec![SECOND, PLAIN];
        let (one, failed) = run(programs, plan(1), |_| {});
        assert!(failed.is_none() && one.calls >= 400);
        assert_eq!(run(programs, plan(3), |_| {}).0, one);
    }
}
