//! One sequence: a table to start from, and then anything.

use super::class::Class;
use super::frames::{self, Size};
use super::layout::{open, pages};
use super::places::{Odd, Places};
use super::reading::used_pages;
use super::tally::Tally;
use super::trial::{Failure, Trial};
use super::{aim, cuts, damage, edits, generate, outside, planted, start, sweep};
use crate::command::Command;
use crate::programs::Program;
use crate::random::Random;
use mpt_monitor::Table;

/// What a sequence met, or how it failed.
pub fn run(programs: &[Program], random: &mut Random) -> Result<Tally, Failure> {
    let mut trial = Trial::new(programs);
    let size = match random.below(1000) {
        0..=859 => Size::Small,
        860..=929 => Size::Middle,
        _ => Size::Large,
    };
    let odd = match random.below(100) {
        0..=5 => return bad_frame(trial, programs, random),
        6..=59 => zeroed(&mut trial, random, size)?,
        _ => {
            let (table, odd) = start::start(random, size);
            trial.start(table);
            odd
        }
    };
    let places = Places::new(random, trial.table(), odd);
    note_table(&mut trial);
    if size != Size::Small {
        large(&mut trial, random, &places)?;
    }
    let steps = if size == Size::Small { 10 + random.below(30) } else { 4 + random.below(6) };
    for _ in 0..steps {
        step(&mut trial, programs, random, &places, size)?;
    }
    note_table(&mut trial);
    Ok(trial.tally)
}

/// What many pages are for: the new page of an open and of an edit lies far up.
fn large(trial: &mut Trial, random: &mut Random, places: &Places) -> Result<(), Failure> {
    if let Some(edit) = edits::for_a_new_page(random, trial.table()) {
        cuts::some_cuts(trial, random, places, edit)?;
    }
    for _ in 0..2 {
        let open = generate::open(random, trial.table());
        trial.obey(open)?;
    }
    Ok(())
}

/// Every call on a frame that breaks a bound, or just not.
fn bad_frame(mut trial: Trial, programs: &[Program], random: &mut Random) -> Result<Tally, Failure> {
    trial.obey(frames::bad(random))?;
    let places = Places::new(random, trial.table(), Vec::new());
    for _ in 0..8 {
        let call = generate::call(random, trial.table(), &places);
        trial.obey(call)?;
    }
    arguments_outside(&mut trial, programs, random, &places)?;
    Ok(trial.tally)
}

/// Zeroed memory with a few domains.
fn zeroed(trial: &mut Trial, random: &mut Random, size: Size) -> Result<Vec<Odd>, Failure> {
    trial.obey(frames::command(frames::good(random, size)))?;
    note_table(trial);
    for _ in 0..random.pick(&[0, 1, 2, 3, 4, 8]) {
        let open = generate::open(random, trial.table());
        trial.obey(open)?;
    }
    Ok(Vec::new())
}

/// Counts what a sound table has in it.
fn note_table(trial: &mut Trial) {
    let table = trial.table();
    let (all, domains, paw) = (pages(table), open(table).count() as u64, table.frame().paw);
    if let Some(used) = used_pages(table).map(|used| used.len()) {
        let classes = [Class::Paw(paw), Class::Domains(domains), Class::in_use(used), Class::free(all - used)];
        classes.into_iter().for_each(|class| trial.tally.note(class));
    }
}

fn step(
    trial: &mut Trial,
    programs: &[Program],
    random: &mut Random,
    places: &Places,
    size: Size,
) -> Result<(), Failure> {
    let table = trial.table();
    match random.below(1000) {
        0..=179 | 600..=699 => {
            let edit = edits::edit(random, table, places);
            cuts::some_cuts(trial, random, places, edit)
        }
        180 if size == Size::Small => {
            let edit = edits::edit(random, table, places);
            cuts::every_cut(trial, edit)
        }
        181..=299 => {
            let writes = damage::reshape(random, table, places);
            writes.into_iter().try_for_each(|write| trial.obey(write).map(drop))
        }
        300..=379 => damaged(trial, random, places),
        380..=383 if size == Size::Small => sweep::sweep(trial, random),
        384..=394 => arguments_outside(trial, programs, random, places),
        395..=401 => planted::planted(trial, random),
        402..=431 if size != Size::Small => planted::planted(trial, random),
        _ => {
            let call = generate::call(random, trial.table(), places);
            trial.obey(call).map(drop)
        }
    }
}

/// Damage, calls that look at it, some more on the damaged table, and mostly repair.
fn damaged(trial: &mut Trial, random: &mut Random, places: &Places) -> Result<(), Failure> {
    let write = damage::damage(random, trial.table(), places);
    let undo = damage::undo(trial.table(), &write);
    let lookups = looking_at(random, trial.table(), &write);
    trial.obey(write)?;
    trial.obey(Command::Sound)?;
    for lookup in lookups {
        trial.obey(lookup)?;
    }
    for _ in 0..random.below(4) {
        let call = generate::call(random, trial.table(), places);
        trial.obey(call)?;
    }
    if random.percent(90) {
        trial.obey(undo)?;
    }
    Ok(())
}

/// Lookups that read a word which is to be written.
fn looking_at(random: &mut Random, table: &Table, write: &Command) -> Vec<Command> {
    let (index, changed) = match *write {
        Command::Poke { index, word } => (index, word ^ table.words()[index]),
        _ => return Vec::new(),
    };
    let bit = if changed == 0 { 0 } else { u64::from(changed.trailing_zeros()) };
    let walk = aim::walk_to(table, index);
    walk.map_or(Vec::new(), |walk| (0..2).map(|_| aim::lookup(random, walk, bit)).collect())
}

fn arguments_outside(
    trial: &mut Trial,
    programs: &[Program],
    random: &mut Random,
    places: &Places,
) -> Result<(), Failure> {
    let calls = outside::calls(random, trial.table(), places);
    for program in programs {
        trial.check(outside::check(program, &calls, trial.table()))?;
    }
    calls.iter().for_each(|(what, _)| trial.tally.note(Class::Outside(what)));
    Ok(())
}
