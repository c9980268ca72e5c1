//! `mpt fuzz`: any values whatever across the boundary to C. The proved library works on memory with
//! closed pages around it, so that a byte touched outside ends the run; and every answer, word and
//! slot must be the second program's.

mod guard;
mod values;

use crate::answer::Reply;
use crate::options::Options;
use crate::output;
use crate::programs::{proved_or, Program, PLAIN, PROVED, SECOND};
use crate::random::Random;
use crate::run::DIFFERENT;
use guard::Guarded;
use mpt_monitor::{Address, Answer, Call, Frame, Reading, Register, Sdid, Slot, View, ViewMut, Writing, MOST_STORES};
use std::sync::atomic::{AtomicBool, Ordering};
use std::thread::{self, available_parallelism};
use std::time::Instant;

/// How long it runs if no --seconds is given.
const SECONDS: u64 = 10;
/// The most words that are lent.
const MOST: usize = 6 * 512;

pub fn main(mut options: Options) -> Result<u8, String> {
    let end = options.end_after("--seconds", SECONDS)?;
    let seed = options.number("--seed")?.unwrap_or(1);
    let from = options.number("--round")?;
    options.end()?;
    proved_or(PLAIN);
    guard::catch_crashes();
    // a round that is to be seen again comes first and alone
    let threads = if from.is_some() { 1 } else { available_parallelism().map_or(1, |cores| cores.get() as u64) };
    let from = from.unwrap_or(0);
    let stop = AtomicBool::new(false);
    let done: Vec<Done> = thread::scope(|scope| {
        let work = |nth| (from + nth..).step_by(threads as usize);
        let spawn = |nth| {
            scope.spawn({
                let stop = &stop;
                move || rounds(seed, work(nth), end, stop)
            })
        };
        let all: Vec<_> = (0..threads).map(spawn).collect();
        all.into_iter().map(|thread| thread.join().expect("a thread ends by itself")).collect()
    });
    let failed = done.iter().filter_map(|done| done.failed.as_ref()).min_by_key(|(round, _)| *round);
    if let Some((round, how)) = failed {
        output::failed(DIFFERENT);
        output::line(format!("FAILED: mpt fuzz --seed {seed} --round {round}\n{how}"));
        return Ok(DIFFERENT);
    }
    let sum = |of: fn(&Done) -> u64| done.iter().map(of).sum::<u64>();
    let (rounds, calls) = (sum(|done| done.rounds), sum(|done| done.calls));
    output::line(format!(
        "seed {seed}: {rounds} tables, {calls} calls with any values: no crash, all answers, words and slots agree"
    ));
    Ok(0)
}

/// What a thread has done.
#[derive(Default)]
struct Done {
    rounds: u64,
    calls: u64,
    failed: Option<(u64, String)>,
}

/// These rounds, until the time is over or a round fails.
fn rounds(seed: u64, rounds: impl Iterator<Item = u64>, end: Option<Instant>, stop: &AtomicBool) -> Done {
    let mut fuzz = Fuzz::new(PROVED.unwrap_or(PLAIN));
    let mut done = Done::default();
    for round in rounds {
        guard::last_words(&format!("CRASHED: mpt fuzz --seed {seed} --round {round}\n"));
        match fuzz.round(&mut Random::new(seed, round)) {
            Ok(made) => done.calls += made,
            Err(how) => {
                done.failed = Some((round, how));
                stop.store(true, Ordering::Relaxed);
            }
        }
        done.rounds += 1;
        if stop.load(Ordering::Relaxed) || end.map_or(false, |end| Instant::now() >= end) {
            break;
        }
    }
    done
}

/// The memory that the subject works on.
struct Fuzz {
    subject: Program,
    memory: Guarded,
    slots: Guarded,
}

/// Where that memory lies: so many words, next to the closed page above them (`high`) or below.
#[derive(Clone, Copy)]
struct Place {
    frame: Frame,
    count: usize,
    high: bool,
}

impl Fuzz {
    fn new(subject: Program) -> Fuzz {
        Fuzz { subject, memory: Guarded::new(MOST), slots: Guarded::new(8) }
    }

    /// A table of any kind and some calls on it; how many, or how the programs differ.
    fn round(&mut self, random: &mut Random) -> Result<u64, String> {
        let frame = values::frame(random);
        let place = Place { frame, count: values::count(random, MOST), high: random.percent(80) };
        let mut words = vec![0; place.count];
        values::fill(random, frame, &mut words);
        let (mut slots, tampered) = ([0; 8], random.percent(30));
        for slot in &mut slots {
            if tampered && random.percent(25) {
                *slot = values::register(random, frame);
            }
        }
        self.memory.words(place.count, place.high).copy_from_slice(&words);
        self.slots.words(8, place.high).copy_from_slice(&slots);
        let calls = 1 + random.below(12);
        for _ in 0..calls {
            let call = any_call(random, frame, &slots);
            let got = self.subject_call(place, call);
            let want = second_call(frame, &mut words, &mut slots, call);
            let after = (self.memory.words(place.count, place.high), self.slots.words(8, place.high));
            if let Some(how) = difference((got, after.0, after.1), (want, &words, &slots)) {
                return Err(format!("{frame:x?}, {} words: {call:x?}: {how}", place.count));
            }
        }
        Ok(calls)
    }

    /// A call that writes no word works on words that can't be written. No call can write the slots:
    /// the caller does, after it.
    fn subject_call(&mut self, place: Place, call: Call) -> Answer {
        let Place { frame, count, high } = place;
        let (interface, memory) = (self.subject.interface, &mut self.memory);
        let answer = self.slots.read_only(8, high, |slots| {
            let slots = slots.try_into().expect("eight slots");
            match call {
                Call::Writing(call) => {
                    interface.write(ViewMut { frame, words: memory.words(count, high), slots }, call)
                }
                Call::Reading(call) => {
                    memory.read_only(count, high, |words| interface.read(View { frame, words, slots }, call))
                }
            }
        });
        write_slot(self.slots.words(8, high), call, answer);
        answer
    }
}

/// A call with any arguments; some of a slot's own numbers.
fn any_call(random: &mut Random, frame: Frame, slots: &[u64; 8]) -> Call {
    let open = (0..8).find(|&slot| slots[slot as usize] != 0);
    let slot = match open {
        Some(slot) if random.percent(60) => slot,
        _ if random.percent(90) => random.below(9),
        _ => values::any(random),
    };
    let register = if random.percent(60) { slots[slot as usize % 8] } else { values::register(random, frame) };
    let sdid = if random.percent(80) { random.below(66) } else { values::any(random) };
    let code = |random: &mut Random| if random.percent(90) { random.below(4) } else { values::any(random) };
    match random.below(9) {
        3.. if open.is_none() && random.percent(50) => Call::open(Slot(slot), Sdid(sdid)),
        0 => Call::open(Slot(slot), Sdid(sdid)),
        1 => Call::close(Slot(slot)),
        2 => Call::sound(),
        3 | 4 => Call::Reading(Reading::Lookup {
            register: Register(register),
            privilege: code(random),
            kind: if random.percent(90) { random.below(10) } else { values::any(random) },
            address: Address(values::address(random, frame)),
        }),
        5 => Call::Reading(Reading::Apart {
            strength: if random.percent(90) { random.below(2) } else { values::any(random) },
        }),
        _ => Call::Writing(Writing::Edit {
            slot: Slot(slot),
            start: Address(values::address(random, frame)),
            length: values::length(random),
            permission: code(random),
            limit: if random.percent(50) { MOST_STORES } else { values::any(random) },
        }),
    }
}

fn second_call(frame: Frame, words: &mut [u64], slots: &mut [u64; 8], call: Call) -> Answer {
    let answer = match call {
        Call::Writing(call) => SECOND.interface.write(ViewMut { frame, words, slots }, call),
        Call::Reading(call) => SECOND.interface.read(View { frame, words, slots }, call),
    };
    write_slot(slots, call, answer);
    answer
}

fn write_slot(slots: &mut [u64], call: Call, answer: Answer) {
    if let Some((slot, register)) = call.slot_after(answer) {
        slots[slot.0 as usize] = register.0;
    }
}

/// How two programs differ after a call: in their answers, their words or their slots.
fn difference(got: (Answer, &[u64], &[u64]), want: (Answer, &[u64], &[u64])) -> Option<String> {
    if got.0 != want.0 {
        return Some(format!(
            "the answer is `{}`, and the second program's `{}`",
            Reply::Call(got.0),
            Reply::Call(want.0)
        ));
    }
    let first = |what, got: &[u64], want: &[u64]| {
        let at = (0..want.len()).find(|&at| got[at] != want[at])?;
        Some(format!("{what} {at} is {:#x}, and the second program's {:#x}", got[at], want[at]))
    };
    first("word", got.1, want.1).or_else(|| first("slot", got.2, want.2))
}

#[cfg(test)]
mod tests {
    use super::*;

    #[test]
    fn plain_passes() {
        let mut fuzz = Fuzz::new(PLAIN);
        assert_eq!((0..2000).find_map(|round| fuzz.round(&mut Random::new(1, round)).err()), None);
    }

    #[test]
    fn a_difference_is_named() {
        let want = (Answer::Sound, vec![7; 512], vec![8; 8]);
        let named = |got: &(Answer, Vec<u64>, Vec<u64>)| {
            difference((got.0, &got.1, &got.2), (want.0, &want.1, &want.2)).unwrap_or_default()
        };
        let mut got = want.clone();
        assert_eq!(named(&got), "");
        got.2[7] = 9;
        assert!(named(&got).starts_with("slot 7 is 0x9, "));
        got.1[511] = 9;
        assert!(named(&got).starts_with("word 511 is 0x9, "));
        got.0 = Answer::refused(3);
        assert_eq!(named(&got), "the answer is `refused 3`, and the second program's `sound`");
    }
}
