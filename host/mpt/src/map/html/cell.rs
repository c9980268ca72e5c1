//! Blocks and lent pages as cells of the page, each with what it is about.

use super::super::access::{BLOCK_BYTES, PAGE_BYTES};
use super::super::block::{Block, Form, Shade, PIECES};
use super::super::markup::escaped;
use super::super::picture::{Domain, Picture, Use};
use super::super::range::Range;
use super::super::section::block_text;
use super::super::terminal::{letter, shade_letter, sign};
use mpt_monitor::Permission;

/// Ranges of a block that its cell names.
const FEW: usize = 6;

pub fn block(picture: &Picture, domain: &Domain, number: usize) -> String {
    let block = &domain.blocks[number];
    let [at, permission, entry] = block_text(domain, number).map(|text| escaped(&text));
    let mut about = format!(" data-at=\"{at}\" data-permission=\"{permission}\" data-entry=\"{entry}\"");
    if block.shade.mixed {
        let pieces: String = block.pieces.iter().map(|piece| shade_letter(*piece)).collect();
        about += &format!(" data-pieces=\"{pieces}\" data-ranges=\"{}\"", ranges(domain, number));
    }
    let lent = if picture.holds_lent(number) { " lent" } else { "" };
    format!("<i class=\"{}{lent}\"{about}>{}</i>", classes(block), sign(block))
}

/// The first ranges of a block, and how many more there are.
fn ranges(domain: &Domain, number: usize) -> String {
    let start = number as u64 * BLOCK_BYTES;
    let first = domain.ranges.partition_point(|range| range.end <= start);
    let within = || domain.ranges[first..].iter().map_while(|range| range.within(start, start + BLOCK_BYTES));
    let named: Vec<String> = within().take(FEW).map(|range| format!("{range} {}", range.what.name())).collect();
    match within().count() - named.len() {
        0 => named.join(", "),
        more => format!("{}, and {more} more", named.join(", ")),
    }
}

fn classes(block: &Block) -> String {
    let permission = if letter(block) == '!' { "bad" } else { block.shade.strongest.name() };
    let form = match block.form {
        Form::Whole | Form::Bad => "",
        Form::Pieces => " pieces",
        Form::Pages { reserved: false, .. } => " by-pages",
        Form::Pages { reserved: true, .. } => " reserved",
        Form::Bare => " bare",
    };
    format!("c {permission}{form}{}", if block.shade.mixed { " mixed" } else { "" })
}

pub fn page(picture: &Picture, nth: usize) -> String {
    let (number, page) = (picture.first + nth as u64, picture.pages[nth]);
    let (class, sign) = match page {
        Use::Free => ("free", String::new()),
        Use::Root(slot) => ("root", format!("R{slot}")),
        Use::L1(slot) => ("l1", format!("P{slot}")),
        Use::Twice => ("twice", "!!".to_string()),
    };
    let (start, end) = (number * PAGE_BYTES, (number + 1) * PAGE_BYTES);
    let at = format!("page 0x{number:x}, {}; {}", Range { start, end, what: () }, page.text());
    let open = picture.exposed.iter().find_map(|range| range.within(start, end));
    let permission = open.map_or("open to no domain".to_string(), |range| range.what.to_string());
    format!("<i class=\"c {class}\" data-at=\"{at}\" data-permission=\"{permission}\">{sign}</i>")
}

/// What the cells mean.
pub fn legend() -> String {
    let signs = [
        (Permission::None, false, Form::Whole, "none"),
        (Permission::Rx, false, Form::Whole, "rx: read, execute"),
        (Permission::Rw, false, Form::Whole, "rw: read, write"),
        (Permission::Rwx, false, Form::Whole, "rwx: all"),
        (Permission::Rw, true, Form::Whole, "striped: the strongest in the block; the rest has another or less"),
        (Permission::Rw, false, Form::Pieces, "by pieces of 2 MiB"),
        (Permission::Rw, false, Form::Pages { page: 0, reserved: false }, "by pages (L1 page)"),
        (Permission::None, false, Form::Bad, "faults: a bad entry or a page that is not lent"),
        (Permission::Rw, false, Form::Pages { page: 0, reserved: true }, "!: reserved bits are set in its L1 page"),
        (Permission::Rwx, false, Form::Bare, "=: Bare, no table is read and all is allowed"),
    ];
    let mut text = "<section id=\"legend\">\n<h2>A cell is a block of 32 MiB, a row is a GiB</h2>\n".to_string();
    for (strongest, mixed, form, about) in signs {
        let shade = Shade { strongest, mixed };
        let block = Block { entry: None, form, shade, pieces: [shade; PIECES] };
        text += &format!("<span><i class=\"{}\">{}</i>{about}</span>\n", classes(&block), sign(&block));
    }
    text += "<span><i class=\"c none lent\"></i>dot: it holds lent pages</span>\n";
    text += "<p>A lent page is R0 the root of slot 0, P0 an L1 page of slot 0, !! used twice, or free.</p>\n";
    text + "</section>\n"
}
