//! `mpt map`: a picture of a table.

pub mod access;
mod block;
mod fold;
mod html;
mod markup;
mod picture;
mod range;
mod section;
mod shared;
mod svg;
mod terminal;

use crate::image;
use crate::options::{number, Options};
use crate::output;
use crate::programs::{proved_or, Program, SECOND};
use crate::run::{EndState, Source, Stop, AMISS};
use crate::undone::Undone;
use mpt_monitor::{Frame, PageNumber, Table};
use picture::Picture;
pub use section::number_of;
use std::ffi::{OsStr, OsString};
use std::fs;

pub fn main(options: Options) -> Result<u8, String> {
    draw(options).or_else(Stop::status)
}

fn draw(mut options: Options) -> Result<u8, Stop> {
    let programs = options.programs(|| vec![proved_or(SECOND)])?;
    let (svg, html, whole) = (target(&mut options, "--svg")?, target(&mut options, "--html")?, options.flag("--whole"));
    let image = options.values::<3>("--image", "FILE PAW FIRST")?;
    let file = options.word();
    options.end()?;
    let (table, undone) = match (image, file) {
        (Some(_), Some(_)) => {
            return Err("--image and a FILE of commands can't be asked for together".to_string().into())
        }
        (Some(image), None) => (saved(&image)?, Vec::new()),
        (None, file) => scripted(&programs, file)?,
    };
    let picture = Picture { undone, ..one_picture(&table, &programs)? };
    if let Some(file) = svg {
        write(&file, &svg::draw(&picture))?;
    }
    if let Some(file) = html {
        write(&file, &html::draw(&picture, whole))?;
    }
    let status = if picture.is_fine() { 0 } else { AMISS };
    output::failed(status);
    let colour = output::is_terminal(1) && std::env::var_os("NO_COLOR").is_none();
    output::text(&terminal::draw(&picture, colour, whole));
    Ok(status)
}

/// The file that an option names, which is written.
fn target(options: &mut Options, name: &str) -> Result<Option<OsString>, String> {
    match options.value(name)? {
        Some(file) if file == "-" => Err(format!("{name} `-`: standard input can't be written; name a file")),
        other => Ok(other),
    }
}

fn write(file: &OsStr, text: &str) -> Result<(), String> {
    fs::write(file, text).map_err(|error| format!("{}: {error}", output::name(file)))
}

/// A table that `save` wrote.
fn saved([file, paw, first]: &[OsString; 3]) -> Result<Table, String> {
    let frame = Frame { paw: number("PAW", paw)?, first: PageNumber(number("FIRST", first)?) };
    let bytes = Source::open(Some(file))?.bytes()?;
    image::from_bytes(frame, &bytes).map_err(|why| format!("{}: {why}", output::name(file)))
}

/// The table that a script leaves, and the commands that it asks in vain.
fn scripted(programs: &[Program], file: Option<OsString>) -> Result<(Table, Vec<Undone>), Stop> {
    let end = EndState::of(programs, file.as_deref())?;
    Ok((end.table("picture")?.clone(), end.undone()))
}

/// The picture that all programs have of a table.
fn one_picture(table: &Table, programs: &[Program]) -> Result<Picture, Stop> {
    let first = Picture::of(table, programs[0])?;
    for &other in &programs[1..] {
        if Picture::of(table, other)? != first {
            let names = (programs[0].name, other.name);
            return Err(Stop::Differ(format!("{} and {} read this table differently", names.0, names.1)));
        }
    }
    Ok(first)
}

#[cfg(test)]
mod tests {
    use super::*;
    use crate::programs::PLAIN;
    use mpt_monitor::{Answer, Interface, Reading, View, ViewMut, Writing};

    /// A program whose lookups go wrong in one page.
    struct Misreads;

    impl Interface for Misreads {
        fn read(&self, table: View<'_>, call: Reading) -> Answer {
            match call {
                Reading::Lookup { address, .. } if address.page().0 == 0x40000 => Answer::fault(5),
                call => PLAIN.interface.read(table, call),
            }
        }

        fn write(&self, table: ViewMut<'_>, call: Writing) -> Answer {
            PLAIN.interface.write(table, call)
        }
    }

    #[test]
    fn programs_that_read_a_table_differently_have_no_picture() {
        let mut sides = crate::sides::Sides::new(&[SECOND]);
        for line in ["frame 32 0x80000 16", "open 0 5", "edit 0 0x40000000 0x2000 rw 1536"] {
            sides.obey(&crate::command::parse(line).unwrap().unwrap());
        }
        let table = sides.table().unwrap();
        let slip = Program { name: "slip", interface: &Misreads };
        let how = |programs: &[Program]| match one_picture(table, programs) {
            Ok(_) => None,
            Err(Stop::Wrong(how) | Stop::Differ(how)) => Some(how),
        };
        assert_eq!(how(&[PLAIN, SECOND]), None);
        assert_eq!(how(&[SECOND, slip]), Some("second and slip read this table differently".to_string()));
    }
}
