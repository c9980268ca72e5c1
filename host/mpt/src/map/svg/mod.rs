//! The picture as a page of A4 that can be printed and hung at the bench.

mod cell;
mod legend;
mod lists;
mod sheet;

use super::picture::{Domain, Picture, GIB_BLOCKS};
use super::section::{block_text, summary, verdict};
use lists::LINE;
use sheet::{Box, Sheet, Type};

const LEFT: f64 = 120.0;
const RIGHT: f64 = 1980.0;
const TOP: f64 = 130.0;
const BOTTOM: f64 = 2890.0;
/// Lent pages in a row.
const PAGES_ROW: usize = 32;
/// From a panel to the one beside it.
const BESIDE: f64 = 955.0;
/// Above the rows of a panel, and between panels.
const PANEL_HEAD: f64 = 74.0;
const PANEL_GAP: f64 = 26.0;

pub fn draw(picture: &Picture) -> String {
    let mut sheet = Sheet::new();
    sheet_of(picture, &mut sheet);
    sheet.end()
}

/// Draws all; answers where the last thing ends.
fn sheet_of(picture: &Picture, sheet: &mut Sheet) -> f64 {
    sheet.text(LEFT, TOP, Type::of(56.0), "Memory protection table");
    sheet.text(LEFT, TOP + 48.0, Type::of(28.0), &summary(picture));
    let (alarm, verdict) = (!picture.is_fine(), verdict(picture));
    // small enough that it ends on the sheet: half of it may be bold capitals
    let size = ((RIGHT - LEFT) / verdict.len() as f64 / 0.75).min(30.0);
    sheet.text(LEFT, TOP + 88.0, Type { alarm, ..Type::of(size) }, &verdict);
    let crowded = picture.domains.len() > 4 && picture.paw > 32;
    let y = lists::above(sheet, picture, if crowded { 3 } else { 6 }, TOP + 100.0) + 16.0;
    let layout = Layout::of(picture, BOTTOM - y - pages_height(picture) - legend::HEIGHT);
    let y = domains(sheet, picture, &layout, y);
    let y = pages(sheet, picture, y);
    legend::draw(sheet, y);
    y + legend::HEIGHT
}

/// How the domains are laid out: columns of panels and of their lists, and the size of a cell.
struct Layout {
    columns: usize,
    lists: usize,
    label: f64,
    cell: Box,
    lines: usize,
    panel_height: f64,
}

/// How many rows so many things take.
fn rows_of(count: usize, to_a_row: usize) -> usize {
    (count + to_a_row - 1) / to_a_row
}

impl Layout {
    /// Into so much room, as far as it goes: a cell has a height below which nothing could be seen.
    fn of(picture: &Picture, room: f64) -> Layout {
        let rows = 1usize.max(1 << (picture.paw - 30));
        let columns = if picture.domains.len() > 2 { 2 } else { 1 };
        let (width, label) = if columns == 2 { (905.0, 140.0) } else { (RIGHT - LEFT, 190.0) };
        let lists = 4 / columns;
        let panel = room / rows_of(picture.domains.len().max(1), columns) as f64 - PANEL_HEAD - PANEL_GAP;
        let longest = picture.domains.iter().map(|domain| domain.ranges.len()).max().unwrap_or(0);
        let most = ((panel - 11.0 * rows as f64) / LINE).max(1.0) as usize;
        let lines = rows_of(longest, lists).clamp(1, most.min(12));
        let height = ((panel - lines as f64 * LINE) / rows as f64).clamp(9.0, 60.0);
        let cell = Box { x: 0.0, y: 0.0, width: (width - label) / GIB_BLOCKS as f64, height };
        let panel_height = PANEL_HEAD + PANEL_GAP + height * rows as f64 + lines as f64 * LINE;
        Layout { columns, lists, label, cell, lines, panel_height }
    }
}

/// Draws every domain; answers where the next thing can begin.
fn domains(sheet: &mut Sheet, picture: &Picture, layout: &Layout, top: f64) -> f64 {
    for (nth, domain) in picture.domains.iter().enumerate() {
        let x = LEFT + (nth % layout.columns) as f64 * BESIDE;
        let y = top + (nth / layout.columns) as f64 * layout.panel_height;
        panel(sheet, picture, domain, layout, x, y);
    }
    if picture.domains.is_empty() {
        sheet.text(LEFT, top + 40.0, Type::of(36.0), "No slot is open.");
        return top + 60.0;
    }
    top + rows_of(picture.domains.len(), layout.columns) as f64 * layout.panel_height
}

fn panel(sheet: &mut Sheet, picture: &Picture, domain: &Domain, layout: &Layout, x: f64, y: f64) {
    let register = domain.register;
    let title = format!("Slot {}: SDID {}", domain.slot, register.sdid().0);
    sheet.text(x, y + 30.0, Type::of(34.0), &title);
    let width = GIB_BLOCKS as f64 * layout.cell.width;
    let size = if layout.columns == 2 { 20.0 } else { 24.0 };
    let root = format!("mmpt {register}, root page {:#x}", register.root().0);
    sheet.text(x + layout.label + width, y + 30.0, Type { anchor: "end", ..Type::of(size) }, &root);
    for block in (0..GIB_BLOCKS as u64).step_by(8) {
        let at = x + layout.label + block as f64 * layout.cell.width;
        sheet.text(at, y + 62.0, Type::of(20.0), &format!("+0x{:08x}", block << 25));
    }
    for gib in 0..rows_of(domain.blocks.len(), GIB_BLOCKS) {
        row(
            sheet,
            picture,
            domain,
            gib,
            Box { x, y: y + PANEL_HEAD + gib as f64 * layout.cell.height, ..layout.cell },
            layout.label,
        );
    }
    let rows = layout.panel_height - PANEL_HEAD - PANEL_GAP - layout.lines as f64 * LINE;
    let place =
        Box { x, y: y + PANEL_HEAD + rows + 4.0, width: layout.label + width, height: layout.lines as f64 * LINE };
    lists::below(sheet, domain, place, layout.lists);
}

/// A GiB: its address and its blocks.
fn row(sheet: &mut Sheet, picture: &Picture, domain: &Domain, gib: usize, start: Box, label: f64) {
    // an address has eleven characters
    let size = ((label - 10.0) / 7.1).min(start.height * 0.95);
    let address = format!("0x{:09x}", (gib as u64) << 30);
    sheet.text(start.x, start.y + start.height * 0.5 + size * 0.36, Type::of(size), &address);
    for nth in 0..GIB_BLOCKS {
        let number = gib * GIB_BLOCKS + nth;
        let place = Box { x: start.x + label + nth as f64 * start.width, ..start };
        cell::draw_block(sheet, &domain.blocks[number], place, &block_text(domain, number).join("; "));
        if picture.holds_lent(number) {
            sheet.dot(place);
        }
    }
}

/// From a row of lent pages to the next.
fn page_row(picture: &Picture) -> f64 {
    if picture.pages.len() > 4 * PAGES_ROW {
        30.0
    } else {
        42.0
    }
}

fn pages_height(picture: &Picture) -> f64 {
    70.0 + rows_of(picture.pages.len(), PAGES_ROW) as f64 * page_row(picture)
}

/// Draws the lent pages; answers where the next thing can begin.
fn pages(sheet: &mut Sheet, picture: &Picture, y: f64) -> f64 {
    sheet.text(LEFT, y + 30.0, Type::of(34.0), "Lent pages");
    let (label, step) = (190.0, page_row(picture));
    let (width, height) = ((RIGHT - LEFT - label) / PAGES_ROW as f64, step - 4.0);
    for (nth, page) in picture.pages.iter().enumerate() {
        let (row, column) = (nth / PAGES_ROW, nth % PAGES_ROW);
        let top = y + 46.0 + row as f64 * step;
        let number = picture.first + nth as u64;
        if column == 0 {
            sheet.text(LEFT, top + height * 0.75, Type::of(24.0), &format!("0x{number:06x}"));
        }
        let place = Box { x: LEFT + label + column as f64 * width, y: top, width, height };
        cell::draw_page(sheet, *page, place, number);
    }
    y + pages_height(picture)
}

#[cfg(test)]
mod tests {
    use super::super::picture::tests::picture;
    use super::*;
    use crate::undone::Undone;

    #[test]
    fn every_block_and_page_is_on_the_sheet() {
        let lines =
            ["frame 31 0x40000 5", "open 0 5", "open 1 0", "edit 0 0 0x1000 rx 1536", "edit 1 0 0x1000 rw 1536"];
        let svg = draw(&picture(&lines));
        let titles = |text: &str| svg.matches(text).count();
        // two domains of 64 blocks, each with its address
        assert_eq!(titles("<title>0x07e000000 to 0x07fffffff; none; L2 entry 0x0000000000000000"), 2);
        assert_eq!(titles("<title>0x000000000 to 0x001ffffff; rx in part; L2 entry 0x0000400000040002"), 1);
        assert_eq!(titles("<title>page 0x4000"), 5);
        assert_eq!(svg.matches("<g>").count(), svg.matches("</g>").count());
        assert!(svg.starts_with("<svg ") && svg.trim_end().ends_with("</svg>"));
        assert!(svg.contains(">rw: slot 1; rx: slot 0</text>"), "what is shared");
        assert!(svg.contains(">0x000000000-0x000000fff rx, 4 KiB</text>"), "a domain's range");
    }

    #[test]
    fn the_largest_table_fits_the_page_with_all_that_can_be_said() {
        let mut lines = vec!["frame 34 0x40000 256".to_string()];
        lines.extend((0..8).map(|slot| format!("open {slot} {slot}")));
        // each root speaks for what is lent, and for some pages of a block of its own
        lines.extend((0..8).map(|root| format!("poke {} 0x300000000000", root * 512 + 32)));
        lines.extend((0..8).map(|root| format!("poke {} {:#x}", root * 512 + 7, 0x4000_0004_0010u64 + root)));
        lines.extend((0..4096).map(|word| format!("poke {} 0x3010203010102030", 16 * 512 + word)));
        let lines: Vec<&str> = lines.iter().map(String::as_str).collect();
        let undone = Undone { line: 1, command: "close 9".to_string(), why: "refused".to_string() };
        let picture = Picture { undone: vec![undone; 99], ..picture(&lines) };
        let mut sheet = Sheet::new();
        let bottom = sheet_of(&picture, &mut sheet);
        assert!(bottom <= BOTTOM + 1.0, "{bottom}");
        let svg = sheet.end();
        assert!(svg.contains("and 96 more") && svg.contains("OPEN to rwx: slots 0 1 2 3 4 5 6 7"));
    }
}
