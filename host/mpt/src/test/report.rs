//! What a run says at its end.

use super::tally::Tally;
use super::workers::Failed;
use crate::run::DIFFERENT;

/// A run of so many calls must meet every class.
const EVERY_CLASS_FROM: u64 = 1_000_000;

/// What was reached, and whether that was everything. A short run is not asked for everything.
pub fn passed(tally: &Tally, count: u64, seconds: f64) -> (u8, Vec<String>) {
    let Tally { calls, cuts, .. } = tally;
    let mut lines =
        vec![format!("{calls} calls agree in every answer, word and slot; {cuts} cuts keep demand 3; {seconds:.1} s")];
    if count == 0 {
        return (0, lines);
    }
    lines.extend(tally.summary());
    let missing = tally.missing();
    let many = missing.len();
    if many == 0 {
        lines.push("every class was reached".to_string());
        return (0, lines);
    }
    if count < EVERY_CLASS_FROM {
        lines.push(format!("{many} classes were not reached, which is asked of {EVERY_CLASS_FROM} calls and more"));
        return (0, lines);
    }
    lines.push(format!("FAILED: {many} classes were never reached"));
    lines.extend(missing.into_iter().map(|class| {
        let (table, row, column) = class.place();
        format!("  {table}: {row} {column}").trim_end().to_string()
    }));
    (DIFFERENT, lines)
}

/// The failure, and how to see it again.
pub fn failed(seed: u64, before: &Tally, failed: &Failed) -> Vec<String> {
    let Failed { sequence, failure } = failed;
    let here = failure.script.iter().filter(|command| command.call().is_some()).count() as u64;
    let calls = before.calls + here;
    let script = match failure.by_script {
        true => "# the lines from here on are for `mpt run FILE --all`, whose last answer shows it",
        false => "# the commands up to there, in the language of `mpt run`; their answers agree",
    };
    let head = [
        format!("FAILED after {calls} calls, in sequence {sequence}: {}", failure.what),
        format!("# the same again: mpt test --seed {seed} --sequence {sequence}"),
        script.to_string(),
    ];
    head.into_iter().chain(failure.script.iter().map(ToString::to_string)).collect()
}

#[cfg(test)]
mod tests {
    use super::super::class::Class;
    use super::super::workers::{run, Plan, Programs};
    use super::*;
    use crate::answer::Outcome;
    use crate::command::{parse, Command};
    use crate::programs::{Program, PLAIN, SECOND};
    use crate::sides::Sides;
    use mpt_monitor::{Answer, Interface, Reading, Verdict, View, ViewMut, Writing};

    #[test]
    fn a_long_run_fails_where_a_class_is_missing() {
        let mut tally = Tally::default();
        let all = Class::demanded();
        all[1..].iter().for_each(|class| tally.note(*class));
        let said = |tally: &Tally, count| {
            let (status, lines) = passed(tally, count, 1.0);
            (status, lines.last().unwrap().clone())
        };
        assert_eq!(said(&tally, EVERY_CLASS_FROM), (DIFFERENT, "  refusals: lookup 1".to_string()));
        assert_eq!(said(&tally, EVERY_CLASS_FROM - 1).0, 0);
        tally.note(all[0]);
        assert_eq!(said(&tally, EVERY_CLASS_FROM), (0, "every class was reached".to_string()));
    }

    /// Allows what lies past the address space.
    struct Allows;

    impl Interface for Allows {
        fn read(&self, table: View<'_>, call: Reading) -> Answer {
            match (PLAIN.interface.read(table, call), call) {
                (Answer::Looked(_), Reading::Lookup { address, .. }) if address.0 >> 34 != 0 => {
                    Answer::Looked(Verdict::Allowed)
                }
                (answer, _) => answer,
            }
        }

        fn write(&self, table: ViewMut<'_>, call: Writing) -> Answer {
            PLAIN.interface.write(table, call)
        }
    }

    fn slipping() -> Vec<Program> {
        vec![Program { name: "slip", interface: &Allows }, SECOND]
    }

    /// What the advice says: the sequence, and the script's lines.
    fn advice(lines: &[String]) -> (u64, Vec<Command>) {
        let again =
            lines[1..].iter().find_map(|line| line.strip_prefix("# the same again: mpt test --seed 7 --sequence "));
        let script = lines.iter().position(|line| line.contains("`mpt run FILE --all`")).unwrap();
        let commands = lines[script + 1..].iter().map(|line| parse(line).unwrap().unwrap());
        (again.unwrap().parse().unwrap(), commands.collect())
    }

    #[test]
    fn the_advice_shows_the_failure_again() {
        let plan = Plan { seed: 7, from: 0, count: 20_000, threads: 2 };
        let (before, first) = run(slipping as Programs, plan, |_| {});
        let first = first.expect("the slip is found");
        let (sequence, script) = advice(&failed(7, &before, &first));
        let again = run(slipping, Plan { from: sequence, count: 0, threads: 1, ..plan }, |_| {}).1;
        assert_eq!(again.expect("it fails again").failure, first.failure);
        let mut sides = Sides::new(&slipping());
        let outcomes: Vec<Outcome> = script.iter().map(|command| sides.obey(command)).collect();
        let (last, others) = outcomes.split_last().unwrap();
        assert!(matches!(last, Outcome::Differ(_)), "{last:?}");
        assert!(others.iter().all(|outcome| matches!(outcome, Outcome::Answer(_))));
    }
}
