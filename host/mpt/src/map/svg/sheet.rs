//! A sheet of A4 in SVG. Lengths are in tenths of a millimetre.

use super::super::markup::escaped;
use std::fmt::Write;

#[derive(Clone, Copy, Debug)]
pub struct Box {
    pub x: f64,
    pub y: f64,
    pub width: f64,
    pub height: f64,
}

impl Box {
    /// The same box, smaller by `by` on each side.
    pub fn inset(self, by: f64) -> Box {
        Box { x: self.x + by, y: self.y + by, width: self.width - 2.0 * by, height: self.height - 2.0 * by }
    }
}

/// How text is set.
#[derive(Clone, Copy)]
pub struct Type {
    pub size: f64,
    /// start, middle or end.
    pub anchor: &'static str,
    /// All letters of one width.
    pub even: bool,
    /// It must not be missed.
    pub alarm: bool,
}

impl Type {
    pub const fn of(size: f64) -> Type {
        Type { size, anchor: "start", even: false, alarm: false }
    }
}

/// How large a letter is, or two, in a box.
fn letter_size(place: Box, text: &str) -> f64 {
    let wide = place.width * 0.8 / (0.55 + 0.45 * text.len() as f64);
    (place.height * 0.8).min(wide).min(28.0)
}

pub struct Sheet {
    text: String,
}

const HEAD: &str = r##"<svg xmlns="http://www.w3.org/2000/svg" width="210mm" height="297mm" viewBox="0 0 2100 2970" font-family="DejaVu Sans, Liberation Sans, Arial, sans-serif">
<defs><pattern id="mixed" width="8" height="8" patternUnits="userSpaceOnUse" patternTransform="rotate(45)"><rect width="2.8" height="8" fill="#ffffff" fill-opacity="0.72"/></pattern></defs>
<rect width="2100" height="2970" fill="#ffffff"/>
"##;

impl Sheet {
    pub fn new() -> Sheet {
        Sheet { text: HEAD.to_string() }
    }

    pub fn end(mut self) -> String {
        self.text += "</svg>\n";
        self.text
    }

    fn line(&mut self, line: std::fmt::Arguments) {
        self.text.write_fmt(line).expect("a string takes all");
        self.text.push('\n');
    }

    /// What follows, to its end, shows a title where a pointer rests on it.
    pub fn begin_group(&mut self, title: &str) {
        self.line(format_args!("<g><title>{}</title>", escaped(title)));
    }

    pub fn end_group(&mut self) {
        self.line(format_args!("</g>"));
    }

    pub fn text(&mut self, x: f64, y: f64, how: Type, text: &str) {
        let Type { size, anchor, even, alarm } = how;
        let family = if even { r#" font-family="DejaVu Sans Mono, Liberation Mono, monospace""# } else { "" };
        let ink = if alarm { r##"font-weight="bold" fill="#b01010""## } else { r##"fill="#202020""## };
        self.line(format_args!(
            r##"<text x="{x:.1}" y="{y:.1}" font-size="{size:.1}" text-anchor="{anchor}" {ink}{family}>{}</text>"##,
            escaped(text)
        ));
    }

    /// A letter, or two, in the middle of a box.
    pub fn letter(&mut self, place: Box, text: &str, ink: &str) {
        if !text.is_empty() {
            let size = letter_size(place, text);
            let (x, y) = (place.x + place.width / 2.0, place.y + place.height / 2.0 + size * 0.36);
            self.line(format_args!(
                r#"<text x="{x:.1}" y="{y:.1}" font-size="{size:.1}" text-anchor="middle" fill="{ink}">{}</text>"#,
                escaped(text)
            ));
        }
    }

    /// What a letter covers of its box.
    pub fn ground(place: Box, text: &str) -> Box {
        let height = letter_size(place, text);
        let width = (height * 0.9 * text.len() as f64).min(place.width);
        let (x, y) = (place.x + (place.width - width) / 2.0, place.y + (place.height - height) / 2.0);
        Box { x, y, width, height }
    }

    pub fn rectangle(&mut self, place: Box, fill: &str, stroke: &str, width: f64) {
        let Box { x, y, width: w, height: h } = place;
        self.line(format_args!(r#"<rect x="{x:.2}" y="{y:.2}" width="{w:.2}" height="{h:.2}" fill="{fill}" stroke="{stroke}" stroke-width="{width}"/>"#));
    }

    /// A dot in the upper right corner of a box.
    pub fn dot(&mut self, place: Box) {
        let radius = (place.width.min(place.height) * 0.16).min(7.0);
        let (x, y) = (place.x + place.width - 1.5 * radius, place.y + 1.5 * radius);
        self.line(format_args!(r##"<circle cx="{x:.2}" cy="{y:.2}" r="{radius:.2}" fill="#202020"/>"##));
    }
}
