//! `mpt apart`: are the domains of a bench kept apart, in words, and if not what to do.

use crate::answer::{Outcome, Reply};
use crate::command::Command;
use crate::map::access::Lookups;
use crate::options::Options;
use crate::output;
use crate::programs::{proved_or, Program, SECOND};
use crate::run::{EndState, Stop, AMISS};
use mpt_monitor::{
    Address, Answer, Edit, Memory, PageNumber, Permission, Refusal, Register, Separation, Slot, Strength, Table,
    MOST_STORES, PAGE_WORDS,
};
use std::ops::Range;

pub fn main(options: Options) -> Result<u8, String> {
    test(options).or_else(Stop::status)
}

fn test(mut options: Options) -> Result<u8, Stop> {
    let programs = options.programs(|| vec![proved_or(SECOND)])?;
    let strength = if options.flag("--strict") { Strength::Strict } else { Strength::Sharing };
    let file = options.word();
    options.end()?;
    let mut end = EndState::of(&programs, file.as_deref())?;
    let table = end.table("answer")?.clone();
    let separation = tested(&mut end, strength)?;
    let undone = end.undone();
    let fine = separation == Separation::Apart && undone.is_empty();
    output::failed(if fine { 0 } else { AMISS });
    let about = About { table: &table, program: programs[0], strength };
    about.lines(separation).iter().for_each(output::line);
    if !undone.is_empty() {
        output::line(format!("But this is not the bench that {} describes: commands were refused or cut.", end.name));
    }
    for command in &undone {
        output::line(format!("  line {}, `{}`: {}", command.line, output::shown(&command.command), command.why));
    }
    Ok(if fine { 0 } else { AMISS })
}

/// What all programs answer.
fn tested(end: &mut EndState, strength: Strength) -> Result<Separation, Stop> {
    match end.sides.obey(&Command::Apart(strength)) {
        Outcome::Answer(Reply::Call(Answer::Tested(separation))) => Ok(separation),
        Outcome::Answer(Reply::Call(Answer::Refused(refusal))) => Err(Stop::Wrong(why_refused(&end.name, refusal))),
        Outcome::Answer(other) => Err(Stop::Wrong(format!("{}: the program answers {other}", end.name))),
        Outcome::Error(error) => Err(Stop::Wrong(error.to_string())),
        Outcome::Differ(how) => {
            Err(Stop::Differ(format!("{}: the programs differ: {}", end.name, how.to_string().replace('\n', "; "))))
        }
    }
}

fn why_refused(name: &str, refusal: Refusal) -> String {
    let help = match refusal {
        Refusal::NotSound => "; `mpt map` shows where",
        _ => "",
    };
    format!("{name}: nothing can be said, refused {}: {refusal}{help}", refusal.number())
}

/// The table that an answer is about.
struct About<'a> {
    table: &'a Table,
    program: Program,
    strength: Strength,
}

impl About<'_> {
    fn lines(&self, separation: Separation) -> Vec<String> {
        match separation {
            Separation::Apart => self.of_apart(),
            Separation::TableOpen { page, slot, written } => self.of_table(page, slot, written),
            Separation::PageShared { page, slot, other, written } => self.of_shared(page, [slot, other], written),
        }
    }

    fn of_apart(&self) -> Vec<String> {
        let (apart, sharing) = match self.strength {
            Strength::Sharing => (
                "APART: no domain may write a page that is open to another, nor a page that the table uses.",
                Some("They may share pages that none of them may write; --strict asks for no shared page at all."),
            ),
            Strength::Strict => {
                ("APART: no page is open to two domains, and no page that the table uses to any.", None)
            }
        };
        let free = self.free_is_open().then_some("Free lent pages are open: the next open or edit may take them.");
        let [reads, conditions] = PROMISE;
        [Some(apart), Some(reads), Some(conditions), sharing, free].into_iter().flatten().map(str::to_string).collect()
    }

    /// Whether a lent page that the table does not use is open to a domain.
    fn free_is_open(&self) -> bool {
        let (frame, slots) = (self.table.frame(), self.table.slots());
        let of_second = second::Frame { paw: frame.paw, first: frame.first.0 };
        let used = second::used_pages(of_second, self.table.words(), slots).unwrap_or_default();
        let is_open = |page| (0..slots.len() as u64).any(|slot| self.permission(page, Slot(slot)) != Permission::None);
        self.lent().filter(|page| !used.contains(page)).any(|page| is_open(PageNumber(page)))
    }

    /// The numbers of the lent pages.
    fn lent(&self) -> Range<u64> {
        let first = self.table.frame().first.0;
        first..first + (self.table.words().len() / PAGE_WORDS) as u64
    }

    fn of_table(&self, page: PageNumber, slot: Slot, written: bool) -> Vec<String> {
        let (place, use_of_page) = (address(page), self.use_of(page));
        let may = if written { "may write" } else { "may read" };
        let harm = match written {
            true => "A domain that writes the table gives itself any page of the board.".to_string(),
            false => {
                format!("It reads which pages the others have; it can change nothing. {}", self.if_not_strict(page))
            }
        };
        vec![
            format!("NOT APART: page {place} is {use_of_page}, and slot {} {may} it.", slot.0),
            self.holder(page, slot),
            harm,
            NO_EDIT_OPENS.to_string(),
            self.advice("To take the page away", &[edit(slot, page, Permission::None)]),
            "This is the lowest page at fault. `mpt map` lists what of the table's memory is open.".to_string(),
        ]
    }

    fn of_shared(&self, page: PageNumber, slots: [Slot; 2], written: bool) -> Vec<String> {
        let writers: Vec<Slot> = slots.into_iter().filter(|&slot| writes(self.permission(page, slot))).collect();
        let (how, harm) = match (written, &writers[..]) {
            (true, [writer]) => {
                ("and one of them may write it", format!("Slot {} may change what the other reads there.", writer.0))
            }
            (true, _) => ("and both may write it", "Each may change what the other reads there.".to_string()),
            (false, _) => ("and neither may write it", self.if_not_strict(page)),
        };
        let [one, other] = slots.map(|slot| slot.0);
        let mut lines = vec![format!("NOT APART: page {} is open to slots {one} and {other}, {how}.", address(page))];
        lines.extend(slots.map(|slot| self.holder(page, slot)));
        lines.push(harm);
        lines.push(self.advice("To take the page from one of them", &[edit(slots[1], page, Permission::None)]));
        if self.lent().contains(&page.0) {
            lines.push(NO_EDIT_OPENS.to_string());
        } else if written && self.strength == Strength::Sharing {
            let edits: Vec<Edit> = writers.iter().map(|&slot| edit(slot, page, Permission::Rx)).collect();
            lines.push(self.advice("If none needs to write it", &edits));
        }
        lines.push("This is the lowest page at fault. `mpt map` lists all that is shared.".to_string());
        lines
    }

    /// What is said without --strict of a page that the slots told may only read: another slot may write it.
    fn if_not_strict(&self, page: PageNumber) -> String {
        let mut slots = (0..self.table.slots().len() as u64).map(Slot);
        match slots.find(|&slot| writes(self.permission(page, slot))) {
            Some(writer) => format!("Slot {} may write it, so that it is at fault without --strict too.", writer.0),
            None => "Without --strict this is let through.".to_string(),
        }
    }

    /// Edits for an end, or which of them would be refused: they are tried on a table like this one.
    fn advice(&self, end: &str, edits: &[Edit]) -> String {
        let mut table = self.table.clone();
        for &edit in edits {
            if let Err(refusal) = self.program.monitor().edit(&mut table, edit) {
                let number = refusal.number();
                return format!("{end}: not by `{}`, which is refused {number}: {refusal}", Command::Edit(edit));
            }
        }
        let commands: Vec<String> = edits.iter().map(|&edit| format!("`{}`", Command::Edit(edit))).collect();
        format!("{end}: {}", commands.join(" and "))
    }

    /// What a slot has of a page, by the program's lookups.
    fn permission(&self, page: PageNumber, slot: Slot) -> Permission {
        match (self.table.register(slot), page.address()) {
            (Some(register), Some(Address(address))) => {
                Lookups { program: self.program, table: self.table, register }.page(address)
            }
            _ => Permission::None,
        }
    }

    fn holder(&self, page: PageNumber, slot: Slot) -> String {
        let sdid = self.table.register(slot).map_or(0, |register| register.sdid().0);
        format!("  slot {}, SDID {sdid}: {}", slot.0, self.permission(page, slot).name())
    }

    /// What a page of a sound table is for.
    fn use_of(&self, page: PageNumber) -> String {
        let slots = self.table.slots();
        let root = (0..slots.len()).find(|&slot| slots[slot] != 0 && Register(slots[slot]).root() == page);
        match root {
            Some(slot) => format!("the root page of slot {slot}"),
            None => format!("an L1 page of the table (lent page {})", page.0 - self.table.frame().first.0),
        }
    }
}

const PROMISE: [&str; 2] = [
    "What a domain reads is what it would read if it were alone on the board, whatever the others do,",
    "as long as the table stays as it is and only domains store, each through its walk.",
];

const NO_EDIT_OPENS: &str =
    "No edit opens a lent page: words were written past the monitor, or by one that was lent other pages.";

fn writes(permission: Permission) -> bool {
    matches!(permission, Permission::Rw | Permission::Rwx)
}

fn address(page: PageNumber) -> String {
    page.address().map_or_else(|| format!("{page:?}"), |address| format!("{:#x}", address.0))
}

/// Gives one page a permission.
fn edit(slot: Slot, page: PageNumber, permission: Permission) -> Edit {
    let start = page.address().unwrap_or(Address(0));
    let length = PAGE_WORDS as u64 * 8;
    Edit { slot, start, length, permission, limit: MOST_STORES }
}
