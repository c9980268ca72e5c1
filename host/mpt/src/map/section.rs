//! The lists of a picture, as text that each drawing sets in its own way.

use super::access::{BLOCK_BYTES, PAGE_BYTES};
use super::fold::{list, Join, Line};
use super::picture::{Domain, Picture, Use};
use super::range::{grouped, Range};
use super::shared::Holders;
use mpt_monitor::{PageNumber, Permission, Separation};

/// A list under its title.
pub struct Section {
    pub title: String,
    pub entries: Vec<Entry>,
    /// How many are left out.
    pub more: usize,
    /// It must not be missed.
    pub alarm: bool,
}

/// A line of a list.
#[derive(Debug, PartialEq, Eq)]
pub struct Entry {
    /// Where: addresses, or a line of the script.
    pub place: String,
    pub size: String,
    pub what: String,
    /// Of a domain's range.
    pub permission: Option<Permission>,
}

impl Section {
    /// The title, with a mark before what must not be missed: colours may be lost on the way.
    pub fn heading(&self) -> String {
        format!("{}{}", if self.alarm { "! " } else { "" }, self.title)
    }

    /// Says how many are left out, if some are.
    pub fn rest(&self, how: &str) -> Option<String> {
        (self.more > 0).then(|| format!("and {} more{how}", grouped(self.more as u64)))
    }
}

/// One line about the frame and its pages.
pub fn summary(picture: &Picture) -> String {
    let (first, last) = (picture.first, picture.first + picture.pages.len() as u64 - 1);
    let roots = number_of(picture.count(|each| matches!(each, Use::Root(_))), "root");
    let l1 = number_of(picture.count(|each| matches!(each, Use::L1(_))), "L1 page");
    let free = picture.count(|each| *each == Use::Free);
    format!(
        "PAW {}, lent pages {first:#x} to {last:#x} ({}): {roots}, {l1}, {free} free",
        picture.paw,
        picture.pages.len()
    )
}

/// What is to be said of the whole, in one line.
pub fn verdict(picture: &Picture) -> String {
    let table = match (picture.sound, picture.exposed.is_empty()) {
        (true, true) => "The table is sound",
        (true, false) => "The table is sound, BUT ITS OWN MEMORY IS OPEN",
        (false, true) => "The table is NOT SOUND: open, close and edit are refused (3)",
        (false, false) => "The table is NOT SOUND: open, close and edit are refused (3), AND ITS OWN MEMORY IS OPEN",
    };
    match picture.undone.len() {
        0 => format!("{table}."),
        1 => format!("{table}. BUT 1 COMMAND WAS REFUSED OR CUT."),
        count => format!("{table}. BUT {} COMMANDS WERE REFUSED OR CUT.", grouped(count as u64)),
    }
}

/// What stands above the domains, as far as there is something to say.
pub fn sections(picture: &Picture, most: Option<usize>) -> Vec<Section> {
    let (written, read): (Vec<_>, Vec<_>) = picture.shared.iter().partition(|range| range.what.may_write());
    let undone = (!picture.undone.is_empty()).then(|| undone(picture, most));
    let shared = [
        shared("Open to more than one domain, and one of them may write", &written, most, true),
        shared("Open to more than one domain, and none may write", &read, most, false),
    ];
    undone.into_iter().chain([separation(picture)]).chain(shared).chain([table_memory(picture, most)]).collect()
}

fn undone(picture: &Picture, most: Option<usize>) -> Section {
    let shown = picture.undone.len().min(most.unwrap_or(usize::MAX));
    let entry = |each: &crate::undone::Undone| Entry {
        place: format!("line {}", each.line),
        size: String::new(),
        what: format!("`{}`: {}", crate::output::shown(&each.command), each.why),
        permission: None,
    };
    Section {
        title: "Commands that were refused or cut".to_string(),
        entries: picture.undone[..shown].iter().map(entry).collect(),
        more: picture.undone.len() - shown,
        alarm: true,
    }
}

/// What the program's tests say, in one line; the lists below it are by lookups.
fn separation(picture: &Picture) -> Section {
    let entry = match picture.apart {
        [Ok(Separation::Apart), Ok(Separation::Apart)] => {
            Entry::of("yes: no page is open to two of them, and no page that the table uses to any")
        }
        [Ok(Separation::Apart), Ok(told)] => Entry::at_fault(told, "yes, but for what none may write, here first: "),
        [Ok(told), _] => Entry::at_fault(told, "NO, here first: "),
        [Err(refusal), _] => Entry::of(&format!("unknown, refused {}: {refusal}", refusal.number())),
    };
    let alarm = matches!(picture.apart[0], Ok(Separation::TableOpen { .. } | Separation::PageShared { .. }));
    let mut entries = vec![entry];
    if picture.apart[0] == Ok(Separation::Apart) && picture.free_is_open() {
        entries.push(Entry::of("free lent pages are open: the next open or edit may take them"));
    }
    Section { title: "Are the domains kept apart?".to_string(), entries, more: 0, alarm }
}

fn shared(title: &str, ranges: &[Range<Holders>], most: Option<usize>, alarm: bool) -> Section {
    let list = list(ranges, most);
    let what = |line: &Line<Holders>| line.range.what.to_string();
    let mut entries = entries(&list.lines, what);
    if entries.is_empty() {
        entries.push(Entry::of("no page"));
    }
    Section { title: title.to_string(), entries, more: list.more, alarm: alarm && !ranges.is_empty() }
}

fn table_memory(picture: &Picture, most: Option<usize>) -> Section {
    let list = list(&picture.exposed, most);
    let mut entries = entries(&list.lines, |line| format!("OPEN to {}", line.range.what));
    let lent = picture.lent();
    if entries.is_empty() {
        let (place, size) = (lent.to_string(), lent.size());
        entries.push(Entry { place, size, ..Entry::of("open to no domain") });
    }
    let alarm = !picture.exposed.is_empty();
    Section { title: "The table's own memory (the lent pages)".to_string(), entries, more: list.more, alarm }
}

/// The ranges that are open to a domain.
pub fn ranges(domain: &Domain, most: Option<usize>) -> Section {
    let list = list(&domain.ranges, most);
    let mut entries = entries(&list.lines, |line| line.range.what.name().to_string());
    for (entry, line) in entries.iter_mut().zip(&list.lines) {
        entry.permission = Some(line.range.what);
    }
    if entries.is_empty() {
        entries.push(Entry::of("no page is open to it"));
    }
    let title = number_of(domain.ranges.len(), "open range");
    Section { title, entries, more: list.more, alarm: false }
}

/// A block's addresses, its permissions and its L2 entry.
pub fn block_text(domain: &Domain, number: usize) -> [String; 3] {
    let (block, start) = (&domain.blocks[number], number as u64 * BLOCK_BYTES);
    let addresses = Range { start, end: start + BLOCK_BYTES, what: () }.to_string();
    let part = if block.shade.mixed { " in part" } else { "" };
    let entry = match block.entry {
        Some(entry) => format!("L2 entry 0x{entry:016x}, {}", block.form.text()),
        None => format!("no L2 entry, {}", block.form.text()),
    };
    [addresses, format!("{}{part}", block.shade.strongest.name()), entry]
}

impl Entry {
    fn of(what: &str) -> Entry {
        Entry { place: String::new(), size: String::new(), what: what.to_string(), permission: None }
    }

    /// The lowest page at fault, with a few words before what is told of it.
    fn at_fault(told: Separation, before: &str) -> Entry {
        let may = |written: bool| if written { "may write" } else { "may read" };
        let (page, what) = match told {
            Separation::Apart => return Entry::of("yes"),
            Separation::TableOpen { page, slot, written } => {
                (page, format!("slot {} {} this page of the table", slot.0, may(written)))
            }
            Separation::PageShared { page, slot, other, written } => {
                let and = if written { ", and one of them may write it" } else { "" };
                (page, format!("slots {} and {} share this page{and}", slot.0, other.0))
            }
        };
        let PageNumber(number) = page;
        let range = Range { start: number * PAGE_BYTES, end: (number + 1) * PAGE_BYTES, what: () };
        Entry { place: range.to_string(), size: range.size(), ..Entry::of(&format!("{before}{what}")) }
    }
}

/// Lines that stand for many ranges say so.
fn entries<T: Join>(lines: &[Line<T>], what: impl Fn(&Line<T>) -> String) -> Vec<Entry> {
    let entry = |line: &Line<T>| {
        let (place, what) = (line.range.to_string(), what(line));
        match line.count {
            1 => Entry { place, size: line.range.size(), what, permission: None },
            count => {
                let what = format!("{what} at most, in {} ranges (see --whole)", grouped(count as u64));
                Entry { place, size: String::new(), what, permission: None }
            }
        }
    };
    lines.iter().map(entry).collect()
}

pub fn number_of(count: usize, what: &str) -> String {
    format!("{} {what}{}", grouped(count as u64), if count == 1 { "" } else { "s" })
}

#[cfg(test)]
mod tests {
    use super::super::picture::tests::picture;
    use super::*;

    const TWO: [&str; 6] = [
        "frame 32 0x80000 16",
        "open 0 5",
        "open 1 6",
        "edit 0 0x40000000 0x3000 rw 1536",
        "edit 1 0x40002000 0x2000 rx 1536",
        "edit 1 0x40000000 0x1000 rx 1536",
    ];

    fn lines(section: &Section) -> Vec<String> {
        section.entries.iter().map(|entry| format!("{}|{}|{}", entry.place, entry.size, entry.what)).collect()
    }

    #[test]
    fn shared_pages_by_whether_one_may_write() {
        let mut commands = TWO.to_vec();
        let found = sections(&picture(&commands), Some(9));
        let apart = "0x040000000 to 0x040000fff|4 KiB|NO, here first: slots 0 and 1 share this page, and one of them may write it";
        assert_eq!((lines(&found[0]), found[0].alarm), (vec![apart.to_string()], true));
        let found = &found[1..];
        let wanted = [
            "0x040000000 to 0x040000fff|4 KiB|rw: slot 0; rx: slot 1",
            "0x040002000 to 0x040002fff|4 KiB|rw: slot 0; rx: slot 1",
        ];
        assert_eq!((lines(&found[0]), found[0].alarm), (wanted.map(str::to_string).to_vec(), true));
        assert_eq!(found[0].heading(), "! Open to more than one domain, and one of them may write");
        assert_eq!(found[1].heading(), "Open to more than one domain, and none may write");
        assert_eq!((lines(&found[1]), found[1].alarm), (vec!["||no page".to_string()], false));
        let closed = "0x080000000 to 0x08000ffff|64 KiB|open to no domain".to_string();
        assert_eq!((lines(&found[2]), found[2].alarm), (vec![closed], false));
        commands.push("edit 0 0x40000000 0x3000 rx 1536");
        let found = sections(&picture(&commands), Some(1));
        let apart = "0x040000000 to 0x040000fff|4 KiB|yes, but for what none may write, here first: slots 0 and 1 share this page";
        assert_eq!((lines(&found[0]), found[0].alarm), (vec![apart.to_string()], false));
        let found = &found[1..];
        assert!(!found[0].alarm && found[1].entries.len() == 1);
        assert_eq!(found[1].rest(" here"), Some("and 1 more here".to_string()));
    }

    #[test]
    fn open_table_memory_is_an_alarm() {
        let mut commands = TWO.to_vec();
        commands.push("poke 64 0x200000000000");
        let found = sections(&picture(&commands), Some(9));
        let open = "0x080000000 to 0x08000ffff|64 KiB|OPEN to rw: slot 0".to_string();
        assert_eq!((lines(&found[3]), found[3].alarm), (vec![open], true));
        let mut picture = picture(&commands);
        assert_eq!(verdict(&picture), "The table is sound, BUT ITS OWN MEMORY IS OPEN.");
        picture.sound = false;
        assert!(verdict(&picture).ends_with("are refused (3), AND ITS OWN MEMORY IS OPEN."));
    }

    #[test]
    fn whether_the_domains_are_kept_apart_is_what_the_tests_say() {
        let said = |commands: &[&str]| {
            let found = sections(&picture(commands), Some(9));
            (lines(&found[0]), found[0].alarm)
        };
        let apart = "||yes: no page is open to two of them, and no page that the table uses to any".to_string();
        assert_eq!(said(&TWO[..4]), (vec![apart.clone()], false));
        let free = "||free lent pages are open: the next open or edit may take them".to_string();
        // the last lent page, by an L1 page that slot 1 has for block 64
        let last = ["poke 576 0x400000080003", "poke 1536 0x2000000000000000"];
        assert_eq!(said(&[&TWO[..4], &last].concat()), (vec![apart, free.clone()], false));
        let table =
            "0x080000000 to 0x080000fff|4 KiB|NO, here first: slot 0 may write this page of the table".to_string();
        assert_eq!(said(&[&TWO[..4], &["poke 64 0x200000000000"]].concat()), (vec![table], true));
        let read =
            "0x080000000 to 0x080000fff|4 KiB|yes, but for what none may write, here first: slot 1 may read this page of the table";
        assert_eq!(said(&[&TWO[..4], &["poke 576 0x100000000000"]].concat()), (vec![read.to_string(), free], false));
        let unknown = "||unknown, refused 3: the table is not sound".to_string();
        assert_eq!(said(&[&TWO[..4], &["poke 64 0x500000000000"]].concat()), (vec![unknown], false));
    }

    #[test]
    fn the_verdict_names_what_was_not_done() {
        let mut picture = picture(&TWO);
        assert_eq!(verdict(&picture), "The table is sound.");
        assert_eq!(summary(&picture), "PAW 32, lent pages 0x80000 to 0x8000f (16): 2 roots, 2 L1 pages, 12 free");
        let undone = crate::undone::Undone { line: 7, command: "close 5".to_string(), why: "why".to_string() };
        picture.undone = vec![undone];
        assert_eq!(verdict(&picture), "The table is sound. BUT 1 COMMAND WAS REFUSED OR CUT.");
        assert_eq!(lines(&sections(&picture, Some(9))[0]), ["line 7||`close 5`: why"]);
        picture.sound = false;
        assert!(verdict(&picture).starts_with("The table is NOT SOUND: open, close and edit are refused (3). BUT 1"));
    }
}
