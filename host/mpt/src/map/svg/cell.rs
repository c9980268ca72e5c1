//! Blocks and lent pages as cells of the sheet.

use super::super::block::{Block, Form};
use super::super::picture::Use;
use super::super::terminal::sign;
use super::sheet::{Box, Sheet};
use mpt_monitor::Permission;

/// Each darker than the one before, so that they differ in grey too.
pub fn fill(permission: Permission) -> &'static str {
    match permission {
        Permission::None => "#f6f6f3",
        Permission::Rx => "#c4def7",
        Permission::Rw => "#7cc07c",
        Permission::Rwx => "#d9742b",
    }
}

const FAULT: &str = "#d62f2f";
const EDGE: &str = "#9a9a94";
const INK: &str = "#202020";
const WHITE: &str = "#ffffff";

/// Draws a block; `title` stands where a pointer rests on it.
pub fn draw_block(sheet: &mut Sheet, block: &Block, place: Box, title: &str) {
    sheet.begin_group(title);
    let sign = sign(block);
    let (colour, ink) = if sign == "!" { (FAULT, WHITE) } else { (fill(block.shade.strongest), INK) };
    sheet.rectangle(place, colour, EDGE, 1.5);
    if block.shade.mixed {
        sheet.rectangle(place, "url(#mixed)", "none", 0.0);
        // the letter stands on plain ground
        sheet.rectangle(Sheet::ground(place, &sign), colour, "none", 0.0);
    }
    let side = place.height.min(place.width);
    let (thin, thick) = ((side * 0.1).min(2.6), (side * 0.16).min(4.5));
    match block.form {
        Form::Whole | Form::Bad => {}
        Form::Pieces => sheet.rectangle(place.inset(thin * 0.6), "none", "#6b4f9a", thin),
        Form::Pages { reserved: false, .. } => sheet.rectangle(place.inset(thick * 0.5), "none", "#202020", thick),
        Form::Pages { reserved: true, .. } | Form::Bare => {
            sheet.rectangle(place.inset(thick * 0.5), "none", FAULT, thick)
        }
    }
    sheet.letter(place, &sign, ink);
    sheet.end_group();
}

pub fn draw_page(sheet: &mut Sheet, page: Use, place: Box, number: u64) {
    let (colour, text) = match page {
        Use::Free => (WHITE, String::new()),
        Use::Root(slot) => ("#cdb8e8", format!("R{slot}")),
        Use::L1(slot) => ("#f3dc8a", format!("P{slot}")),
        Use::Twice => (FAULT, "!!".to_string()),
    };
    sheet.begin_group(&format!("page 0x{number:x}: {}", page.text()));
    sheet.rectangle(place, colour, EDGE, 1.5);
    sheet.letter(place, &text, if page == Use::Twice { WHITE } else { INK });
    sheet.end_group();
}
