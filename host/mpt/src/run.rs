//! `mpt run`: reads commands, writes answers.

use crate::answer::{Error, Outcome};
use crate::command::{parse, Command};
use crate::map::number_of;
use crate::options::Options;
use crate::output;
use crate::programs::{proved_or, Program, SECOND};
use crate::sides::Sides;
use crate::undone::{undone, Undone};
use mpt_monitor::Table;
use std::ffi::OsStr;
use std::fs::{self, File};
use std::io::{self, BufRead, BufReader, ErrorKind};
use std::str;

/// Exit statuses beside 0.
pub const DIFFERENT: u8 = 1;
pub const WRONG: u8 = 2;
/// Of `mpt map` and `mpt apart`: something is not as it should be.
pub const AMISS: u8 = 3;

/// What is wrong with a file that has a zero byte, and what can be done.
const NO_TEXT: &str = "this is no text of commands, and is not read on. A table that `save` wrote is drawn by \
                       `mpt map --image FILE PAW FIRST`, and read by `load FILE` after a `frame`; a text in UTF-16 \
                       must be saved as UTF-8";

/// What some editors write before the first line.
const BYTE_ORDER_MARK: &[u8] = b"\xef\xbb\xbf";

pub fn main(mut options: Options) -> Result<u8, String> {
    let programs = options.programs(|| vec![proved_or(SECOND)])?;
    let file = options.word();
    options.end()?;
    let mut source = Source::script(file.as_deref())?;
    read(&mut Sides::new(&programs), &mut source, |line| {
        if line.outcome.status() > 0 {
            output::failed(line.outcome.status());
        }
        output::text(&line.answer());
    })
}

/// Where commands come from.
pub struct Source<'a> {
    name: String,
    input: Box<dyn BufRead + 'a>,
    /// The number of the line that was fetched last, from 1.
    number: usize,
}

impl<'a> Source<'a> {
    fn new(name: String, input: impl BufRead + 'a) -> Source<'a> {
        Source { name, input: Box::new(input), number: 0 }
    }

    /// A file, or standard input without a name or with `-`.
    pub fn open(file: Option<&OsStr>) -> Result<Source<'static>, String> {
        let file = match file {
            Some(file) if file != "-" => file,
            _ => return Ok(Source::new("standard input".to_string(), io::stdin().lock())),
        };
        let name = output::name(file);
        if fs::metadata(file).map_or(false, |what| what.is_dir()) {
            return Err(format!("{name} is a directory; a file is wanted"));
        }
        let opened = File::open(file).map_err(|error| format!("{name}: {error}"))?;
        Ok(Source::new(name, BufReader::new(opened)))
    }

    /// The same, of commands. An ordinary file is read to its end once before, so that no line of one that
    /// is no text is obeyed.
    pub fn script(file: Option<&OsStr>) -> Result<Source<'static>, String> {
        if file.map_or(false, |file| file != "-" && fs::metadata(file).map_or(false, |what| what.is_file())) {
            let (mut source, mut bytes) = (Source::open(file)?, Vec::new());
            while source.line(&mut bytes)? {}
        }
        Source::open(file)
    }

    /// Fetches the next line; false at the end. No text has a zero byte.
    fn line(&mut self, bytes: &mut Vec<u8>) -> Result<bool, String> {
        bytes.clear();
        self.number += 1;
        loop {
            let part = match self.input.fill_buf() {
                Err(error) if error.kind() == ErrorKind::Interrupted => continue,
                other => other.map_err(|error| format!("{}: {error}", self.name))?,
            };
            let end = part.iter().position(|byte| matches!(byte, b'\n' | 0)).map_or(part.len(), |at| at + 1);
            if end == 0 {
                return Ok(!bytes.is_empty());
            }
            bytes.extend_from_slice(&part[..end]);
            self.input.consume(end);
            match bytes.last() {
                Some(b'\n') => return Ok(true),
                Some(0) => return Err(format!("{}: line {} has a zero byte: {NO_TEXT}", self.name, self.number)),
                _ => {}
            }
        }
    }

    /// All bytes.
    pub fn bytes(&mut self) -> Result<Vec<u8>, String> {
        let mut bytes = Vec::new();
        self.input.read_to_end(&mut bytes).map_err(|error| format!("{}: {error}", self.name))?;
        Ok(bytes)
    }
}

/// A line of a script that is no comment, and what came of it.
#[derive(Clone, Debug)]
pub struct Line {
    /// From 1.
    pub number: usize,
    /// Nothing if the line can't be read.
    pub command: Option<Command>,
    pub outcome: Outcome,
}

impl Line {
    /// As `mpt run` writes it: the answer; an error with the line's number; how the programs differ.
    fn answer(&self) -> String {
        match &self.outcome {
            Outcome::Answer(reply) => format!("{reply}\n"),
            Outcome::Error(error) => {
                format!("error: line {}: {}\n", self.number, output::shown(&error.to_string()))
            }
            Outcome::Differ(how) => format!("the programs differ\n{how}\n"),
        }
    }
}

impl Outcome {
    fn status(&self) -> u8 {
        match self {
            Outcome::Answer(_) => 0,
            Outcome::Error(_) => WRONG,
            Outcome::Differ(_) => DIFFERENT,
        }
    }
}

/// Why nothing can be told of what a file leaves.
pub enum Stop {
    Wrong(String),
    Differ(String),
}

impl From<String> for Stop {
    fn from(why: String) -> Stop {
        Stop::Wrong(why)
    }
}

impl Stop {
    /// The exit status where programs differ, which is said; else what was wrong.
    pub fn status(self) -> Result<u8, String> {
        match self {
            Stop::Wrong(why) => Err(why),
            Stop::Differ(how) => {
                output::complain(how);
                Ok(DIFFERENT)
            }
        }
    }
}

/// What the commands of a file leave, and each line of it.
pub struct EndState {
    /// Of the file.
    pub name: String,
    pub sides: Sides,
    pub lines: Vec<Line>,
}

impl EndState {
    pub fn of(programs: &[Program], file: Option<&OsStr>) -> Result<EndState, String> {
        let (mut source, mut sides, mut lines) = (Source::script(file)?, Sides::new(programs), Vec::new());
        read(&mut sides, &mut source, |line| lines.push(line))?;
        Ok(EndState { name: source.name, sides, lines })
    }

    /// The table, if every line could be obeyed and the programs agree; else `without` says what there is not.
    pub fn table(&self, without: &str) -> Result<&Table, Stop> {
        let name = &self.name;
        let mut errors = 0;
        for line in &self.lines {
            match &line.outcome {
                Outcome::Answer(_) => {}
                Outcome::Error(error) => {
                    errors += 1;
                    output::complain(format!("{name}: line {}: {error}", line.number));
                }
                Outcome::Differ(how) => {
                    let how = how.to_string().replace('\n', "; ");
                    return Err(Stop::Differ(format!("{name}: line {}: the programs differ: {how}", line.number)));
                }
            }
        }
        match self.sides.table() {
            _ if errors > 0 && errors == self.lines.len() => Err(format!(
                "no line of {name} could be obeyed; a table that `save` wrote is drawn by `mpt map --image FILE PAW FIRST`, \
                 and read by `load FILE` after a `frame`"
            )
            .into()),
            _ if errors > 0 => {
                Err(format!("no {without}, since {} could not be obeyed", number_of(errors, "line")).into())
            }
            None => Err("the commands make no frame; begin with `frame PAW FIRST PAGES`".to_string().into()),
            Some(table) => Ok(table),
        }
    }

    /// The commands that were refused or cut.
    pub fn undone(&self) -> Vec<Undone> {
        undone(&self.lines)
    }
}

/// Obeys each line, up to a difference, and tells what came of it; the exit status.
pub fn read(sides: &mut Sides, source: &mut Source, mut tell: impl FnMut(Line)) -> Result<u8, String> {
    let mut status = 0;
    let mut bytes = Vec::new();
    while status != DIFFERENT && source.line(&mut bytes)? {
        let number = source.number;
        let (command, outcome) = match command(number, &bytes) {
            Ok(None) => continue,
            Ok(Some(command)) => {
                let outcome = sides.obey(&command);
                (Some(command), outcome)
            }
            Err(why) => (None, Outcome::Error(Error::Unreadable(why))),
        };
        match outcome.status() {
            0 => {}
            other => status = other,
        }
        tell(Line { number, command, outcome });
    }
    Ok(status)
}

/// The command of a line, by its bytes.
fn command(number: usize, bytes: &[u8]) -> Result<Option<Command>, String> {
    let bytes = match bytes.strip_prefix(BYTE_ORDER_MARK) {
        Some(rest) if number == 1 => rest,
        _ => bytes,
    };
    match str::from_utf8(bytes) {
        Ok(text) => parse(text),
        Err(_) => match parse(&output::decoded(bytes))? {
            Some(Command::Save(file) | Command::Load(file)) => Err(format!(
                "{} has bytes that are no UTF-8; the name of a file must be UTF-8 here",
                output::quoted(&file)
            )),
            other => Ok(other),
        },
    }
}

#[cfg(test)]
mod tests {
    use super::*;

    /// What `mpt run` writes, its exit status, and the numbers of the lines.
    fn run(text: &[u8]) -> (String, u8, Vec<usize>) {
        let (mut answers, mut numbers) = (String::new(), Vec::new());
        let mut source = Source::new("test".to_string(), text);
        let tell = |line: Line| {
            numbers.push(line.number);
            answers += &line.answer();
        };
        let status = read(&mut Sides::new(&[SECOND]), &mut source, tell).unwrap();
        (answers, status, numbers)
    }

    #[test]
    fn one_answer_a_line_and_reading_goes_on_after_an_error() {
        let (answers, status, numbers) = run(b"# bench\n\nframe 32 0x80000 16\r\nopne 0\nopen 0 5\n\xff\xfe\nclose 1");
        let starts: Vec<&str> = answers.lines().map(|line| &line[..14.min(line.len())]).collect();
        assert_eq!(starts, ["ok", "error: line 4:", "opened 0x11400", "error: line 6:", "refused 4"]);
        assert_eq!((status, numbers), (WRONG, vec![3, 4, 5, 6, 7]));
        assert!(answers.contains("`\\xff\\xfe`"), "{answers}");
    }

    #[test]
    fn a_zero_byte_ends_the_reading_and_its_line_is_named() {
        for (text, line) in [(&b"frame 32 1 2\nsum\0"[..], 2), (b"\0", 1), (b"\n\n# a\n\0\n\0\n", 4)] {
            let (mut source, mut answers) = (Source::new("test".to_string(), text), 0);
            let why = read(&mut Sides::new(&[SECOND]), &mut source, |_| answers += 1).unwrap_err();
            assert!(why.starts_with(&format!("test: line {line} has a zero byte: ")), "{why}");
            assert_eq!(answers, usize::from(line == 2), "what came before it is obeyed");
        }
    }

    #[test]
    fn a_byte_order_mark_is_skipped_before_the_first_line_alone() {
        let (answers, status, _) = run(b"\xef\xbb\xbfframe 32 1 2\n\xef\xbb\xbfsum\n");
        assert!(answers.starts_with("ok\nerror: line 2: "), "{answers}");
        assert_eq!(status, WRONG);
    }

    #[test]
    fn control_bytes_are_shown_and_a_name_that_is_no_text_is_refused() {
        let (answers, _, _) = run(b"frame 32 1 2\n\x1b[2J\nload caf\xe9\nsum # caf\xe9\n");
        let lines: Vec<&str> = answers.lines().collect();
        assert!(lines[1].starts_with("error: line 2: no command `\\x1b[2J`"), "{answers}");
        assert!(lines[2].starts_with("error: line 3: `caf\\xe9` has bytes"), "{answers}");
        assert_eq!(lines[3], "45d57ebb");
    }
}
