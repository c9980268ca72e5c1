//! What the cells of the sheet mean.

use super::super::block::{Block, Form, Shade, PIECES};
use super::super::picture::Use;
use super::cell::{draw_block, draw_page};
use super::sheet::{Box, Sheet, Type};
use super::LEFT;
use mpt_monitor::Permission;

/// How high it is.
pub const HEIGHT: f64 = 40.0 + 4.0 * ROW;
const ROW: f64 = 48.0;
const CELL: f64 = 40.0;

const SIGNS: [(Permission, bool, Form, &str); 10] = [
    (Permission::None, false, Form::Whole, "none"),
    (Permission::Rx, false, Form::Whole, "x: rx, read and execute"),
    (Permission::Rw, false, Form::Whole, "w: rw, read and write"),
    (Permission::Rwx, false, Form::Whole, "a: rwx, all"),
    (Permission::Rw, true, Form::Whole, "striped: only a part has it"),
    (Permission::Rw, false, Form::Pieces, "by pieces of 2 MiB"),
    (Permission::Rw, false, Form::Pages { page: 0, reserved: false }, "by pages (L1 page)"),
    (Permission::None, false, Form::Bad, "faults: bad entry"),
    (Permission::Rw, false, Form::Pages { page: 0, reserved: true }, "!: reserved bits are set"),
    (Permission::Rwx, false, Form::Bare, "=: Bare, all is allowed"),
];

const PAGES: [(Use, &str); 4] = [
    (Use::Root(0), "root page of slot 0"),
    (Use::L1(0), "L1 page of slot 0"),
    (Use::Free, "free page"),
    (Use::Twice, "page used twice"),
];

pub fn draw(sheet: &mut Sheet, y: f64) {
    let about =
        "A cell is a block of 32 MiB, a row is a GiB; it has the colour and letter of its strongest permission. \
                 A dot: it holds lent pages.";
    sheet.text(LEFT, y + 20.0, Type::of(25.0), about);
    for (nth, (strongest, mixed, form, text)) in SIGNS.into_iter().enumerate() {
        let shade = Shade { strongest, mixed };
        let place = place(nth, y);
        draw_block(sheet, &Block { entry: None, form, shade, pieces: [shade; PIECES] }, place, text);
        sheet.text(place.x + 54.0, place.y + 30.0, Type::of(25.0), text);
    }
    for (nth, (page, text)) in PAGES.into_iter().enumerate() {
        let place = place(SIGNS.len() + nth, y);
        draw_page(sheet, page, place, 0);
        sheet.text(place.x + 54.0, place.y + 30.0, Type::of(25.0), text);
    }
}

/// Four to a row.
fn place(nth: usize, y: f64) -> Box {
    Box { x: LEFT + (nth % 4) as f64 * 465.0, y: y + 40.0 + (nth / 4) as f64 * ROW, width: CELL, height: CELL }
}
