//! Interleaved rounds, medians and ratios.

use super::work::{opaque, Batches, Work};
use mpt_monitor::Table;
use std::time::Instant;

/// Nanoseconds of one call, round by round.
#[derive(Default)]
struct Times {
    call: Vec<f64>,
    /// The call without the whole-table check that it makes.
    beyond: Vec<f64>,
}

/// Medians over the rounds, in nanoseconds: the subject and the yardstick.
pub struct Row {
    pub call: [f64; 2],
    pub beyond: [f64; 2],
}

impl Row {
    pub fn ratio(&self) -> f64 {
        self.call[0] / self.call[1]
    }

    pub fn ratio_beyond(&self) -> f64 {
        self.beyond[0] / self.beyond[1]
    }
}

/// Says the time, in nanoseconds from some moment on.
pub type Clock<'a> = &'a dyn Fn() -> f64;

/// The machine's clock.
pub fn clock() -> impl Fn() -> f64 {
    let start = Instant::now();
    move || start.elapsed().as_nanos() as f64
}

/// Measures a subject beside a yardstick. Each round times both, in turn first, so that a busy
/// machine slows both alike.
pub fn measure(work: &Work, subject: &dyn Batches, yardstick: &dyn Batches, rounds: usize, clock: Clock) -> Row {
    let mut tables = work.tables();
    let mut times = [Times::default(), Times::default()];
    for round in 0..rounds + 1 {
        for turn in 0..2 {
            let which = (round + turn) % 2;
            let program = [subject, yardstick][which];
            let call = time_call(work, program, &mut tables, clock);
            let check = time_check(work, program, &mut tables, clock);
            // the first round warms up
            if round > 0 {
                times[which].call.push(call);
                times[which].beyond.push(call - check);
            }
        }
    }
    let [subject, yardstick] = times;
    Row {
        call: [median(subject.call), median(yardstick.call)],
        beyond: [median(subject.beyond), median(yardstick.beyond)],
    }
}

fn time_call(work: &Work, program: &dyn Batches, tables: &mut [Table], clock: Clock) -> f64 {
    work.reset(tables);
    let start = clock();
    opaque(opaque(program).batch(work, tables));
    (clock() - start) / work.count(tables) as f64
}

/// The whole-table check on the tables as they are before the call.
fn time_check(work: &Work, program: &dyn Batches, tables: &mut [Table], clock: Clock) -> f64 {
    work.reset(tables);
    let start = clock();
    opaque(opaque(program).checks(tables));
    (clock() - start) / tables.len() as f64
}

fn median(mut numbers: Vec<f64>) -> f64 {
    numbers.sort_by(f64::total_cmp);
    numbers[numbers.len() / 2]
}

#[cfg(test)]
mod tests {
    use super::super::work;
    use super::*;
    use crate::programs::{Plain, PLAIN, SECOND};
    use mpt_monitor::{Answer, Interface, Reading, View, ViewMut, Writing};
    use std::cell::Cell;

    /// Plain, in a time of its own: a check takes `check` and any other call `call`.
    struct Timed<'a> {
        time: &'a Cell<f64>,
        call: f64,
        check: f64,
    }

    impl Timed<'_> {
        fn pass(&self, time: f64) {
            self.time.set(self.time.get() + time);
        }
    }

    impl Interface for Timed<'_> {
        fn read(&self, table: View<'_>, call: Reading) -> Answer {
            self.pass(if call == Reading::Sound { self.check } else { self.call });
            PLAIN.interface.read(table, call)
        }

        fn write(&self, table: ViewMut<'_>, call: Writing) -> Answer {
            self.pass(self.call);
            PLAIN.interface.write(table, call)
        }
    }

    #[test]
    fn the_median_is_the_middle() {
        assert_eq!(median(vec![9.0, 1.0, 5.0, 1000.0, 2.0]), 5.0);
    }

    #[test]
    fn times_and_ratios_are_those_of_one_call() {
        let time = &Cell::new(0.0);
        let subject = Timed { time, call: 60.0, check: 10.0 };
        let yardstick = Timed { time, call: 30.0, check: 20.0 };
        let measure = |work: &Work| measure(work, &subject, &yardstick, 3, &|| time.get());
        for work in [work::lookup(), work::open(), work::close()] {
            assert_eq!((measure(&work).call, measure(&work).ratio()), ([60.0, 30.0], 2.0), "{}", work.name);
        }
        assert_eq!(measure(&work::largest()).call, [10.0, 20.0]);
        let row = measure(&work::edits()[0]);
        assert_eq!((row.call, row.ratio()), ([60.0, 30.0], 2.0));
        assert_eq!((row.beyond, row.ratio_beyond()), ([50.0, 10.0], 5.0));
    }

    #[test]
    fn plain_against_plain_by_the_clock() {
        let row = measure(&work::lookup(), &Plain, &Plain, 101, &clock());
        assert!((0.2..5.0).contains(&row.ratio()), "{}", row.ratio());
    }

    #[test]
    fn every_edit_is_one_that_plain_does_in_full() {
        for (work, stores) in work::edits().iter().zip([1, 544, 32, 32, 512, 513]) {
            let mut table = work.table.clone();
            match work.calls {
                work::Calls::One(call) => match PLAIN.monitor().call(&mut table, call) {
                    Answer::Edited(edited) => assert_eq!((edited.stores, edited.all), (stores, true), "{}", work.name),
                    other => panic!("{}: {other:?}", work.name),
                },
                _ => panic!("{}: no edit", work.name),
            }
        }
    }

    #[test]
    fn what_is_tested_for_being_apart_is_so_and_full_where_it_says() {
        for (work, pages) in work::apart().iter().zip([9, 256, 256, 256]) {
            let call = match work.calls {
                work::Calls::One(call) => call,
                _ => panic!("{}: no test", work.name),
            };
            let answer = SECOND.monitor().call(&mut work.table.clone(), call);
            assert_eq!(answer, Answer::Tested(mpt_monitor::Separation::Apart), "{}", work.name);
            let frame = second::Frame { paw: work.table.frame().paw, first: work.table.frame().first.0 };
            let used = second::used_pages(frame, work.table.words(), work.table.slots());
            assert_eq!(used.map(|used| used.len()), Some(pages), "{}", work.name);
        }
    }

    #[test]
    fn the_largest_table_is_sound_and_full() {
        let work = work::largest();
        assert_eq!(PLAIN.monitor().sound(&work.table), Ok(()));
        let frame = second::Frame { paw: 34, first: 0x1000 };
        let used = second::used_pages(frame, work.table.words(), work.table.slots());
        assert_eq!(used.map(|used| used.len()), Some(256));
    }
}
