//! The lists on the sheet.

use super::super::picture::{Domain, Picture};
use super::super::section::{ranges, sections, Section};
use super::cell::fill;
use super::sheet::{Box, Sheet, Type};
use super::{LEFT, RIGHT};

/// From a line to the next.
pub const LINE: f64 = 27.0;
const TEXT: f64 = 21.0;
/// How wide a letter is, by its size.
const LETTER: f64 = 0.602;
/// Letters of a line from the second column to the sheet's edge.
const LETTERS: usize = ((RIGHT - LEFT - 130.0) / (TEXT * LETTER)) as usize;

/// The lists above the domains, of at most so many lines each; answers where the next thing can begin.
pub fn above(sheet: &mut Sheet, picture: &Picture, most: usize, mut y: f64) -> f64 {
    for section in sections(picture, Some(most)) {
        sheet.text(LEFT, y + LINE, Type { alarm: section.alarm, ..Type::of(26.0) }, &section.heading());
        y = entries(sheet, &section, y + LINE + 4.0) + 10.0;
    }
    y
}

fn entries(sheet: &mut Sheet, section: &Section, mut y: f64) -> f64 {
    let how = Type { even: true, alarm: section.alarm, ..Type::of(TEXT) };
    for entry in &section.entries {
        y += LINE;
        let mut x = LEFT + 20.0;
        sheet.text(x, y, how, &entry.place);
        if !entry.place.is_empty() {
            x += if entry.size.is_empty() && !entry.place.contains(" to ") { 130.0 } else { 560.0 };
        }
        sheet.text(x - 30.0, y, Type { anchor: "end", ..how }, &entry.size);
        sheet.text(x, y, how, &shortened(&entry.what, LETTERS));
    }
    if let Some(rest) = section.rest(" (`mpt map --whole` lists them)") {
        y += LINE;
        sheet.text(LEFT + 20.0, y, how, &rest);
    }
    y + 6.0
}

fn shortened(text: &str, most: usize) -> String {
    match text.char_indices().nth(most) {
        Some((end, _)) => format!("{}…", &text[..end]),
        None => text.to_string(),
    }
}

/// A domain's ranges in so many lines of so many columns.
pub fn below(sheet: &mut Sheet, domain: &Domain, place: Box, columns: usize) {
    let lines = (place.height / LINE) as usize;
    let most = lines * columns;
    let section = ranges(domain, Some(if domain.ranges.len() > most { most - 1 } else { most }));
    let width = place.width / columns as f64;
    // small enough that the next column stays free
    let fit = |text: &str| Type { even: true, ..Type::of(((width - 34.0) / text.len() as f64 / LETTER).min(19.0)) };
    let at = |nth: usize| (place.x + (nth / lines) as f64 * width, place.y + (nth % lines + 1) as f64 * LINE - 6.0);
    for (nth, entry) in section.entries.iter().enumerate() {
        let (x, y) = at(nth);
        if let Some(permission) = entry.permission {
            let swatch = Box { x, y: y - 15.0, width: 16.0, height: 16.0 };
            sheet.rectangle(swatch, fill(permission), "#606060", 1.0);
        }
        let size = if entry.size.is_empty() { String::new() } else { format!(", {}", entry.size) };
        let text = format!("{} {}{size}", entry.place.replace(" to ", "-"), entry.what);
        sheet.text(x + 24.0, y, fit(&text), &text);
    }
    if let Some(rest) = section.rest(" ranges") {
        let (x, y) = at(section.entries.len());
        sheet.text(x + 24.0, y, fit(&rest), &rest);
    }
}
