//! Demand 3: an edit cut anywhere, and done again.

use super::class::{Asked, Class};
use super::forms::changes;
use super::generate::lookup;
use super::layout::linked;
use super::places::Places;
use super::reading::{frame, free_count, reads_as_asked, reads_as_before_or_after, reads_the_same};
use super::segments::{kinds, places as cut_places, segments, Kind};
use super::trial::{Failure, Trial};
use crate::command::Command;
use crate::random::Random;
use mpt_monitor::{Edit, Table, PAGE_WORDS};

/// An accepted edit: the table before it, and after all its stores.
struct Whole {
    edit: Edit,
    before: Table,
    after: Table,
    stores: u64,
}

/// The whole edit, by the second program's list; nothing if it is refused.
fn whole(table: &Table, edit: Edit) -> Option<Whole> {
    let Edit { slot, start, length, permission, .. } = edit;
    let asked = second::Asked { slot: slot.0, start: start.0, length, permission: permission.code() as u8 };
    let list = second::store_list(frame(table), table.words(), table.slots(), asked).ok()?;
    let mut after = table.clone();
    for store in &list {
        after.words_mut()[store.index] = store.word;
    }
    Some(Whole { edit, before: table.clone(), after, stores: list.len() as u64 })
}

/// A few cuts, each in some segment of what is left of the list, then the finish.
pub fn some_cuts(trial: &mut Trial, random: &mut Random, places: &Places, edit: Edit) -> Result<(), Failure> {
    let whole = match begin(trial, edit)? {
        Some(whole) => whole,
        None => return Ok(()),
    };
    for _ in 0..1 + random.below(4) {
        let at = match cut_place(random, &kinds(trial.table(), edit).unwrap_or_default()) {
            Some(at) => at,
            None => break,
        };
        cut(trial, &whole, at)?;
        let lookup = lookup(random, trial.table(), places);
        trial.obey(lookup)?;
    }
    finish(trial, &whole)
}

/// A cut in some segment of a list, the rare ones first; nothing if there is nothing to cut.
fn cut_place(random: &mut Random, left: &[Kind]) -> Option<u64> {
    let mut all = cut_places(left);
    if random.percent(50) && all.iter().any(|(segment, _)| segment.is_rare()) {
        all.retain(|(segment, _)| segment.is_rare());
    }
    let (_, there) = all.get(random.below(all.len().max(1) as u64) as usize)?;
    Some(there[random.edge(there.len() as u64) as usize] as u64)
}

/// The same edit cut after each number of stores in turn.
pub fn every_cut(trial: &mut Trial, edit: Edit) -> Result<(), Failure> {
    let whole = match begin(trial, edit)? {
        Some(whole) => whole,
        None => return Ok(()),
    };
    for at in 0..=whole.stores {
        let mut once = trial.clone();
        once.tally = Default::default();
        cut(&mut once, &whole, at)?;
        finish(&mut once, &whole)?;
        trial.tally.add(&once.tally);
    }
    Ok(())
}

/// The edit uncut: its length is bounded, and it does what is asked.
fn begin(trial: &mut Trial, edit: Edit) -> Result<Option<Whole>, Failure> {
    let whole = match whole(trial.table(), edit) {
        Some(whole) => whole,
        None => {
            trial.obey(Command::Edit(edit))?;
            return Ok(None);
        }
    };
    let mut uncut = trial.clone();
    uncut.obey(Command::Edit(Edit { limit: u64::MAX, ..edit }))?;
    let most = frame(&whole.before).blocks() as u64 - 2 + 1026;
    let bounded = whole.stores <= most;
    uncut.check(bounded.then_some(()).ok_or_else(|| format!("{} stores; at most {most}", whole.stores)))?;
    uncut.check(reads_the_same(uncut.table(), &whole.after))?;
    uncut.check(reads_as_asked(uncut.table(), &whole.before, edit))?;
    trial.tally = uncut.tally;
    note(trial, &whole);
    Ok(Some(whole))
}

/// Counts the forms before and after, and where the new pages lie.
fn note(trial: &mut Trial, whole: &Whole) {
    for change in changes(&whole.before, &whole.after, whole.edit) {
        trial.tally.note(Class::Block(change));
    }
    let root = whole.before.slots()[whole.edit.slot.0 as usize] & ((1 << 44) - 1);
    let first = whole.before.frame().first.0;
    let at = (root - first) as usize * PAGE_WORDS;
    let entries = |table: &Table| table.words()[at..at + PAGE_WORDS].to_vec();
    for (before, after) in entries(&whole.before).into_iter().zip(entries(&whole.after)) {
        if let Some(page) = linked(after).filter(|_| linked(before).is_none()) {
            trial.tally.note(Class::new_page(Asked::Edit, (page - first) as usize));
        }
    }
}

/// Stopped by its limit, the call leaves every page as before or as after. A cut of an edit that has
/// nothing to store is none.
fn cut(trial: &mut Trial, whole: &Whole, limit: u64) -> Result<(), Failure> {
    let left = kinds(trial.table(), whole.edit).unwrap_or_default();
    again(trial, whole, limit)?;
    trial.tally.cuts += u64::from(!left.is_empty());
    for segment in segments(&left, limit.min(left.len() as u64) as usize) {
        trial.tally.note(Class::Cut(segment));
    }
    trial.check(reads_as_before_or_after(trial.table(), &whole.before, &whole.after))
}

/// The last call does the rest: permissions are those of the uncut edit, and as many pages are free.
/// Not the same pages: what a cut call unlinks is free for the next.
fn finish(trial: &mut Trial, whole: &Whole) -> Result<(), Failure> {
    again(trial, whole, u64::MAX)?;
    trial.check(reads_the_same(trial.table(), &whole.after))?;
    let (free, wanted) = (free_count(trial.table()), free_count(&whole.after));
    trial.check(
        (free == wanted).then_some(()).ok_or_else(|| format!("{free:?} pages are free; {wanted:?} without cuts")),
    )
}

/// The same edit again, which must be accepted.
fn again(trial: &mut Trial, whole: &Whole, limit: u64) -> Result<(), Failure> {
    let reply = trial.obey(Command::Edit(Edit { limit, ..whole.edit }))?;
    let accepted = reply.edited().is_some();
    trial.check(accepted.then_some(()).ok_or_else(|| format!("an edit done again after a cut is {reply}")))
}
