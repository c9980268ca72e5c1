//! A firmware's main loop, and what it does after a reset. The watchdog bites in the middle of edits; each start finishes
//! the edit that was cut, before anything else, and goes on.
//!
//!     MPT_LIBRARY=/path/to/libmpt-x86_64.a cargo run --example firmware --features proved

use mpt_monitor::*;
use std::process::ExitCode;
use std::sync::atomic::{fence, Ordering};

const FRAME: Frame = Frame { paw: 32, first: PageNumber(0x80000) };

/// What outlives a reset, in memory that no start clears.
struct Kept {
    words: Vec<u64>,
    slots: [u64; SLOTS],
    record: Record,
    /// The jobs that are done or refused.
    done: usize,
    /// The last refusal, with its job's number.
    refused: Option<(usize, Refusal)>,
}

/// The edit that is under way. It stands here before the call is made: after a reset nothing else tells
/// which edit was cut.
struct Record {
    /// Not 0 while the rest counts. Written alone, after the rest: a record that a reset has left half
    /// written doesn't count, and its edit has made no store yet.
    pending: u64,
    edit: Edit,
}

impl Record {
    fn begin(&mut self, edit: Edit) {
        self.edit = edit;
        self.write_pending(1);
    }

    fn end(&mut self) {
        self.write_pending(0);
    }

    /// Makes the edit that stands here, then its fence. Only a reset leaves the record standing: an edit that is
    /// refused has made no store, and would be refused again at every start. (Another library may refuse what this one
    /// began: `docs/BOARD.md`, what the caller owes.)
    fn make(&mut self, table: &mut Lent, watchdog: &mut Watchdog, fence: impl Fn(&Lent, Edited)) -> Result<(), Stop> {
        let made = watchdog.edit(table, self.edit).map(|edited| fence(table, edited));
        if !matches!(made, Err(Stop::Reset)) {
            self.end();
        }
        made
    }

    /// One store, in order with those before and after it.
    fn write_pending(&mut self, word: u64) {
        fence(Ordering::SeqCst);
        // SAFETY: a reference is good for a write.
        unsafe { std::ptr::write_volatile(&mut self.pending, word) };
        fence(Ordering::SeqCst);
    }
}

/// What the bench asks of its monitor.
enum Job {
    Open(Slot, Sdid),
    Edit(Edit),
    Close(Slot),
}

/// Why a start ends early.
#[derive(Debug)]
enum Stop {
    Reset,
    Refused(Refusal),
}

impl From<Refusal> for Stop {
    fn from(refusal: Refusal) -> Stop {
        Stop::Refused(refusal)
    }
}

/// Stands for the watchdog: it bites when so many stores are made. An edit that its limit stops leaves what
/// an edit leaves that a reset stops.
struct Watchdog {
    left: u64,
}

impl Watchdog {
    fn edit(&mut self, table: &mut Lent, edit: Edit) -> Result<Edited, Stop> {
        let edited = Monitor::proved().edit(table, Edit { limit: edit.limit.min(self.left), ..edit })?;
        self.left -= edited.stores;
        if edited.all {
            Ok(edited)
        } else {
            Err(Stop::Reset)
        }
    }
}

/// One start of the board: up to the end of all jobs, or to the next reset. A job that is refused is left out; a table
/// that is not sound ends the start.
fn start(kept: &mut Kept, jobs: &[Job], watchdog: &mut Watchdog) -> Result<(), Stop> {
    let monitor = Monitor::proved();
    // a reset may have come between a close and its fence
    println!("  fence all");
    let table = &mut Lent::new(FRAME, &mut kept.words, &mut kept.slots);
    monitor.sound(table)?;
    if kept.record.pending != 0 {
        let slot = kept.record.edit.slot;
        // after a cut the whole domain is fenced, whatever the last call asks
        let made = kept.record.make(table, watchdog, |table, edited| {
            let sdid = table.register(slot).map(Register::sdid);
            println!("  finished the edit that was cut: {} stores more; fence domain {sdid:?}", edited.stores);
        });
        match made {
            Ok(()) => {}
            // the reset came before the first call's refusal was noted; its job comes again below
            Err(Stop::Refused(refusal)) => println!("  the edit under way is refused: {refusal}"),
            Err(Stop::Reset) => return Err(Stop::Reset),
        }
    }
    while let Some(job) = jobs.get(kept.done) {
        match one(job, table, &mut kept.record, watchdog) {
            Ok(()) => {}
            Err(Stop::Refused(refusal)) => {
                println!("  refused: {refusal}");
                kept.refused = Some((kept.done, refusal));
            }
            Err(Stop::Reset) => return Err(Stop::Reset),
        }
        kept.done += 1;
    }
    Ok(())
}

/// One job. A reset may come after it and before it counts as done: made again, it changes nothing.
fn one(job: &Job, table: &mut Lent, record: &mut Record, watchdog: &mut Watchdog) -> Result<(), Stop> {
    let monitor = Monitor::proved();
    match *job {
        Job::Open(slot, sdid) => match table.register(slot) {
            None => println!("  opened {}", monitor.open(table, slot, sdid)?),
            Some(_) => println!("  {slot:?} is open already"),
        },
        Job::Edit(edit) => {
            record.begin(edit);
            let fence = |_: &Lent, edited: Edited| println!("  edited: {} stores, {:?}", edited.stores, edited.fence);
            record.make(table, watchdog, fence)?;
        }
        Job::Close(slot) => match table.register(slot) {
            None => println!("  {slot:?} is closed already"),
            Some(_) => println!("  closed: {:?} comes before its SDID is used again", monitor.close(table, slot)?),
        },
    }
    Ok(())
}

/// What the first start finds.
fn fresh() -> Kept {
    let edit = Edit { slot: Slot(0), start: Address(0), length: 0, permission: Permission::None, limit: 0 };
    let record = Record { pending: 0, edit };
    Kept { words: vec![0; 16 * PAGE_WORDS], slots: [0; SLOTS], record, done: 0, refused: None }
}

/// Starts until all jobs are done; the watchdog bites after so many stores of each start, and then no more.
fn run(mut kept: Kept, jobs: &[Job], bites: &[u64]) -> Result<Kept, Refusal> {
    for left in bites.iter().copied().chain(std::iter::repeat(u64::MAX)) {
        println!("start");
        match start(&mut kept, jobs, &mut Watchdog { left }) {
            Ok(()) => break,
            Err(Stop::Reset) => println!("  reset by the watchdog"),
            Err(Stop::Refused(refusal)) => return Err(refusal),
        }
    }
    Ok(kept)
}

/// Cradle 0 gets two ranges, of which the first needs two new table pages; cradle 1 comes and goes.
fn jobs() -> [Job; 6] {
    let edit = |slot, start, length, permission| {
        Job::Edit(Edit { slot: Slot(slot), start: Address(start), length, permission, limit: MOST_STORES })
    };
    [
        Job::Open(Slot(0), Sdid(5)),
        edit(0, 0x4000_1000, 0x0200_0000, Permission::Rw),
        edit(0, 0x4000_0000, 0x1000, Permission::Rx),
        Job::Open(Slot(1), Sdid(6)),
        edit(1, 0xC000_0000, 0x4000_0000, Permission::Rw),
        Job::Close(Slot(1)),
    ]
}

/// Before a cradle runs: are they kept apart?
fn may_run(kept: &mut Kept) -> ExitCode {
    let table = Lent::new(FRAME, &mut kept.words, &mut kept.slots);
    match Monitor::proved().apart(&table, Strength::Sharing) {
        Ok(Separation::Apart) => {
            println!("the cradles are kept apart and may run");
            ExitCode::SUCCESS
        }
        other => {
            eprintln!("no cradle may run: {other:?}");
            ExitCode::FAILURE
        }
    }
}

fn main() -> ExitCode {
    match run(fresh(), &jobs(), &[300, 513, 600, 10]) {
        Ok(Kept { refused: Some((job, refusal)), .. }) => {
            eprintln!("job {job} is refused: {refusal}");
            ExitCode::FAILURE
        }
        Ok(mut kept) => {
            println!("all jobs are done; slot 0 holds {}", Register(kept.slots[0]));
            may_run(&mut kept)
        }
        Err(refusal) => {
            eprintln!("refused: {refusal}");
            ExitCode::FAILURE
        }
    }
}

#[cfg(test)]
mod tests {
    use super::*;

    /// How pages read around the ends of the ranges.
    fn reads(mut kept: Kept) -> Vec<Result<Verdict, Refusal>> {
        let table = Lent::new(FRAME, &mut kept.words, &mut kept.slots);
        let look = |page: u64| {
            let kind = Kind::Itself(Access::Store);
            Monitor::proved().lookup_slot(&table, Slot(0), Privilege::Supervisor, kind, Address(page << 12))
        };
        (0x3FFFE..0x40004).chain(0x41FFE..0x42004).chain([0xC0000]).map(look).collect()
    }

    #[test]
    fn wherever_the_watchdog_bites_the_end_is_that_of_no_reset() {
        let uncut = reads(run(fresh(), &jobs(), &[]).unwrap());
        let allowed = uncut.iter().filter(|verdict| **verdict == Ok(Verdict::Allowed)).count();
        assert_eq!(allowed, 6, "pages 0x40001 to 0x40003 and 0x41ffe to 0x42000");
        for bites in (0..1100).step_by(37).chain([511, 512, 513, 1024, 1025, 1026]) {
            let kept = run(fresh(), &jobs(), &[bites, bites / 2, bites + 1]).unwrap();
            assert_eq!((kept.done, kept.record.pending, kept.refused), (6, 0, None), "{bites}");
            assert_eq!(reads(kept), uncut, "{bites}");
        }
    }

    /// A range that meets the lent pages.
    const REFUSED: Edit = Edit {
        slot: Slot(0),
        start: Address(FRAME.first.0 << 12),
        length: 0x1000,
        permission: Permission::Rw,
        limit: MOST_STORES,
    };

    #[test]
    fn a_refused_job_is_left_out_and_the_others_are_done() {
        let uncut = reads(run(fresh(), &jobs(), &[]).unwrap());
        for (place, bites) in [(1, 0), (2, 300), (2, 544), (2, 600), (4, 600), (6, 300), (6, u64::MAX)] {
            let mut with: Vec<Job> = jobs().into();
            with.insert(place, Job::Edit(REFUSED));
            let kept = run(fresh(), &with, &[bites]).unwrap();
            assert_eq!((kept.done, kept.record.pending), (7, 0), "{place} {bites}");
            assert_eq!(kept.refused, Some((place, Refusal::MeetsLent)), "{place} {bites}");
            assert_eq!(reads(kept), uncut, "{place} {bites}");
        }
    }

    #[test]
    fn a_reset_between_a_refusal_and_the_end_of_its_record_stops_no_start() {
        let mut kept = run(fresh(), &jobs()[..2], &[]).unwrap();
        kept.record.begin(REFUSED);
        let kept = run(kept, &jobs()[..2], &[]).unwrap();
        assert_eq!((kept.done, kept.record.pending, kept.refused), (2, 0, None));
        let kept = run(kept, &jobs(), &[]).unwrap();
        assert_eq!((kept.done, kept.record.pending, kept.refused), (6, 0, None));
        assert_eq!(reads(kept), reads(run(fresh(), &jobs(), &[]).unwrap()));
    }
}
