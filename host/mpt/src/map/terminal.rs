//! The picture in letters, with colour where it is a terminal.

use super::block::{Block, Form, Shade};
use super::picture::{Domain, Picture, Use, GIB_BLOCKS};
use super::section::{ranges, sections, summary, verdict, Entry, Section};
use mpt_monitor::Permission;
use std::fmt::Write;

/// Lent pages in a row.
const ROW_PAGES: usize = 16;
/// Lines of a list.
const MOST: usize = 24;

/// Colours, by their numbers in a terminal's 256.
const GREY: u8 = 238;
const RED: u8 = 160;

fn colour(permission: Permission) -> u8 {
    [GREY, 24, 28, 130][permission as usize]
}

/// The letter of a permission: small where all pages have it, else a capital.
pub fn shade_letter(shade: Shade) -> char {
    let letter = ['.', 'x', 'w', 'a'][shade.strongest as usize];
    if shade.mixed {
        letter.to_ascii_uppercase()
    } else {
        letter
    }
}

/// The letter of a block.
pub fn letter(block: &Block) -> char {
    match (block.form, block.shade.strongest) {
        (Form::Bad, Permission::None) => '!',
        _ => shade_letter(block.shade),
    }
}

/// The letter of a block that is not closed, and the mark of a form that must not be missed.
pub fn sign(block: &Block) -> String {
    match (letter(block), mark(block.form)) {
        ('!', _) => "!".to_string(),
        (letter, mark @ ('!' | '=')) => format!("{letter}{mark}"),
        ('.', _) => String::new(),
        (letter, _) => letter.to_string(),
    }
}

/// The mark of a form.
fn mark(form: Form) -> char {
    match form {
        Form::Whole => ' ',
        Form::Pieces => ':',
        Form::Pages { reserved: false, .. } => '*',
        Form::Pages { reserved: true, .. } | Form::Bad => '!',
        Form::Bare => '=',
    }
}

struct Ink {
    colour: bool,
}

impl Ink {
    fn paint(&self, text: &str, colour: u8) -> String {
        self.code(text, &format!("97;48;5;{colour}"))
    }

    fn alarm(&self, text: &str) -> String {
        self.code(text, "1;31")
    }

    fn code(&self, text: &str, code: &str) -> String {
        if self.colour {
            format!("\x1b[{code}m{text}\x1b[0m")
        } else {
            text.to_string()
        }
    }

    fn block(&self, block: &Block) -> String {
        let colour = if letter(block) == '!' { RED } else { colour(block.shade.strongest) };
        self.paint(&format!("{}{}", letter(block), mark(block.form)), colour)
    }

    fn page(&self, page: &Use) -> String {
        match page {
            Use::Free => self.paint("..", GREY),
            Use::Root(slot) => self.paint(&format!("R{slot}"), 24),
            Use::L1(slot) => self.paint(&format!("P{slot}"), 130),
            Use::Twice => self.paint("!!", RED),
        }
    }
}

/// Lists are cut short unless the `whole` is asked for.
pub fn draw(picture: &Picture, colour: bool, whole: bool) -> String {
    let (ink, most) = (Ink { colour }, if whole { None } else { Some(MOST) });
    let verdict = verdict(picture);
    let verdict = if picture.is_fine() { verdict } else { ink.alarm(&verdict) };
    let mut text = format!("{}\n{verdict}\n", summary(picture));
    for section in sections(picture, most) {
        text += &section_text(&section, &ink);
    }
    for domain in &picture.domains {
        text += &domain_text(domain, &ink);
        text += &entries_text(&ranges(domain, most), &ink);
    }
    if picture.domains.is_empty() {
        text += "\nNo slot is open.\n";
    }
    text + &pages_text(picture, &ink) + &legend(&ink)
}

fn section_text(section: &Section, ink: &Ink) -> String {
    let heading = if section.alarm { ink.alarm(&section.heading()) } else { section.heading() };
    format!("\n{heading}\n{}", entries_text(section, ink))
}

fn entries_text(section: &Section, ink: &Ink) -> String {
    let width = |text: fn(&Entry) -> &String| section.entries.iter().map(|entry| text(entry).len()).max().unwrap_or(0);
    let (place, size) = (width(|entry| &entry.place), width(|entry| &entry.size));
    let mut text = String::new();
    for entry in &section.entries {
        let mut line = String::from(if section.alarm { "!" } else { " " });
        if place > 0 {
            let _ = write!(line, " {:<place$} ", entry.place);
        }
        if size > 0 {
            let _ = write!(line, " {:>11} ", entry.size);
        }
        let line = format!("{line} {}", entry.what);
        let _ = writeln!(text, "{}", if section.alarm { ink.alarm(&line) } else { line });
    }
    if let Some(rest) = section.rest(" (--whole lists them)") {
        let _ = writeln!(text, "  {rest}");
    }
    text
}

fn domain_text(domain: &Domain, ink: &Ink) -> String {
    let register = domain.register;
    let (sdid, root) = (register.sdid().0, register.root().0);
    let mut text = format!("\nslot {}: SDID {sdid}, root page {root:#x}, register {register}\n", domain.slot);
    let marks: String = (0..GIB_BLOCKS as u64).step_by(8).map(|block| format!("{:<16}", offset(block))).collect();
    let _ = writeln!(text, "{:>13}{}", "", marks.trim_end());
    for (gib, blocks) in domain.blocks.chunks(GIB_BLOCKS).enumerate() {
        let cells: String = blocks.iter().map(|block| ink.block(block)).collect();
        let _ = writeln!(text, "0x{:09x}  {}", (gib as u64) << 30, cells.trim_end());
    }
    text
}

/// How far a block's start is above its GiB's.
fn offset(block: u64) -> String {
    format!("+0x{:08x}", block << 25)
}

fn pages_text(picture: &Picture, ink: &Ink) -> String {
    let mut text = "\nlent pages\n".to_string();
    for (row, pages) in picture.pages.chunks(ROW_PAGES).enumerate() {
        let cells: Vec<String> = pages.iter().map(|page| ink.page(page)).collect();
        let first = picture.first + (row * ROW_PAGES) as u64;
        let _ = writeln!(text, "  0x{first:06x}  {}", cells.join(" "));
    }
    text
}

fn legend(ink: &Ink) -> String {
    let names = [(".", "none"), ("x", "rx"), ("w", "rw"), ("a", "rwx")];
    let cells = names.iter().zip(Permission::ALL);
    let cells: Vec<String> = cells.map(|((cell, name), each)| ink.paint(cell, colour(each)) + " " + name).collect();
    format!(
        "\na cell is a block of 32 MiB, a row is a GiB. The letter is the strongest permission in it:
  {}
  small where all of the block has it; X W A where some has it and the rest has another or less
the mark after it is the form: blank by a 1G type, : by pieces of 2 MiB, * by pages,
  ! a bad entry, reserved bits or a page that is not lent, = Bare
a lent page is {} root of slot 0, {} L1 page of slot 0, {} free, {} used twice\n",
        cells.join(", "),
        ink.page(&Use::Root(0)),
        ink.page(&Use::L1(0)),
        ink.page(&Use::Free),
        ink.page(&Use::Twice),
    )
}

#[cfg(test)]
mod tests {
    use super::super::picture::tests::picture;
    use super::*;

    const LINES: [&str; 8] = [
        "frame 31 0x40000 3",
        "open 0 9",
        "edit 0 0 0x40000000 rwx 1536",
        "edit 0 0x42000000 0x1000 rw 1536",
        "edit 0 0x41e00000 0x200000 rx 1536",
        "poke 0 0x100000000000",
        "poke 1 0x200000000000",
        "poke 2 0x500000000000",
    ];

    #[test]
    fn a_row_has_a_letter_and_a_mark_for_each_block() {
        let picture = picture(&LINES);
        let text = draw(&picture, false, false);
        let rows: Vec<&str> = text.lines().filter(|line| line.starts_with("0x")).collect();
        assert_eq!(rows[0], format!("0x000000000  x w !!{}", "a ".repeat(29).trim_end()));
        assert_eq!(rows[1], format!("0x040000000  X:W*{}", ".:".repeat(30)));
        assert!(text.contains("  0x040000  R0 P0 ..\n"));
        assert!(text.contains("NOT SOUND"));
        assert!(!text.contains('\x1b') && draw(&picture, true, false).contains("\x1b["));
        assert_eq!(text.lines().find(|line| line.chars().count() > 100), None);
    }

    /// Where colours are lost, a sign tells what is not as it should be.
    #[test]
    fn signs_of_blocks() {
        let mut lines = LINES.to_vec();
        lines.extend(["poke 513 0x8", "slot 5 0x0000200000000000"]);
        let picture = picture(&lines);
        let sign = |slot: usize, block: usize| sign(&picture.domains[slot].blocks[block]);
        assert_eq!([0, 1, 2, 3, 32, 33, 34].map(|block| sign(0, block)), ["x", "w", "!", "a", "X", "W!", ""]);
        assert_eq!((sign(1, 0), sign(1, 63)), ("a=".to_string(), "a=".to_string()));
        let text = draw(&picture, false, false);
        let marked = |line: &&str| line.starts_with("! ");
        let wanted =
            ["! Open to more than one domain, and one of them may write", "! The table's own memory (the lent pages)"];
        assert_eq!(text.lines().filter(marked).filter(|line| !line.contains("0x0")).collect::<Vec<_>>(), wanted);
    }

    #[test]
    fn below_a_domain_stand_its_ranges() {
        let text = draw(&picture(&LINES), false, false);
        let ranges: Vec<&str> = text.lines().filter(|line| line.starts_with("  0x0") && line.contains("iB")).collect();
        let wanted = [
            "  0x040000000 to 0x040002fff       12 KiB  open to no domain",
            "  0x000000000 to 0x001ffffff       32 MiB  rx",
            "  0x002000000 to 0x003ffffff       32 MiB  rw",
            "  0x006000000 to 0x03fffffff      928 MiB  rwx",
            "  0x041e00000 to 0x041ffffff        2 MiB  rx",
            "  0x042000000 to 0x042000fff        4 KiB  rw",
        ];
        assert_eq!(ranges, wanted);
    }

    #[test]
    fn the_longest_lists_are_cut_short_unless_the_whole_is_asked_for() {
        // two domains with every other page of a block, by the fields of an L1 page
        let mut lines = vec!["frame 30 0x1000 4".to_string(), "open 0 1".to_string(), "open 1 2".to_string()];
        lines.extend((0..2).map(|root| format!("poke {} {:#x}", root * 512, 0x4000_0000_1002u64 + root)));
        lines.extend((1024..2048).map(|word| format!("poke {word} 0x0202020202020202")));
        let lines: Vec<&str> = lines.iter().map(String::as_str).collect();
        let picture = picture(&lines);
        let text = draw(&picture, false, false);
        assert!(text.lines().count() < 60, "{text}");
        assert!(text.contains("  0x000000000 to 0x001ffefff  rw at most, in 4,096 ranges (see --whole)\n"), "{text}");
        assert!(text.contains("rw: slots 0 1 at most, in 4,096 ranges (see --whole)\n"), "{text}");
        assert!(draw(&picture, false, true).lines().count() > 3 * 4096);
    }
}
