//! Standard output and standard error: what ends when nobody takes a line, and how bytes are shown.

use crate::run::WRONG;
use std::ffi::OsStr;
use std::fmt::Display;
use std::io::{self, ErrorKind, Write};
use std::os::raw::c_int;
use std::os::unix::ffi::OsStrExt;
use std::process::exit;
use std::str;
use std::sync::atomic::{AtomicU8, Ordering};

/// The exit status that is known by now.
static STATUS: AtomicU8 = AtomicU8::new(0);

/// Says that the work has failed with this status, which then stands also if nobody reads on.
pub fn failed(status: u8) {
    STATUS.store(status, Ordering::Relaxed);
}

/// Writes a line.
pub fn line(line: impl Display) {
    text(&format!("{line}\n"));
}

/// Writes text. Where nobody reads any more, as after `| head`, the work ends quietly with the status
/// that is known by now; where it can't be written, it ends with an error.
pub fn text(text: &str) {
    let mut standard = io::stdout().lock();
    match standard.write_all(text.as_bytes()).and_then(|()| standard.flush()) {
        Ok(()) => {}
        Err(error) if error.kind() == ErrorKind::BrokenPipe => exit(STATUS.load(Ordering::Relaxed).into()),
        Err(error) => {
            complain(format!("standard output: {error}"));
            exit(WRONG.into())
        }
    }
}

/// Writes a line to standard error, with nothing in it that moves a terminal's cursor.
pub fn complain(text: impl Display) {
    // where this can't be written, the exit status says it still
    let _ = writeln!(io::stderr(), "mpt: {}", shown(&text.to_string()));
}

/// Text with each byte of a control character as \xNN.
pub fn shown(text: &str) -> String {
    let mut shown = String::new();
    for character in text.chars() {
        if character.is_control() {
            let mut bytes = [0; 4];
            shown += &escaped(character.encode_utf8(&mut bytes).as_bytes());
        } else {
            shown.push(character);
        }
    }
    shown
}

/// The most characters of a text that an error quotes: a line of a file that is no text may be very long.
const QUOTED: usize = 80;

/// Text in an error, as `shown` and between quotes; the rest of a long one is left out.
pub fn quoted(text: &str) -> String {
    let start: String = text.chars().take(QUOTED + 1).collect();
    let shown = shown(&start);
    match shown.char_indices().nth(QUOTED) {
        Some((end, _)) => format!("`{}..`", &shown[..end]),
        None => format!("`{shown}`"),
    }
}

fn escaped(bytes: &[u8]) -> String {
    bytes.iter().map(|byte| format!("\\x{byte:02x}")).collect()
}

/// Bytes as text; those that are no UTF-8 as \xNN.
pub fn decoded(mut bytes: &[u8]) -> String {
    let mut text = String::new();
    while let Err(error) = str::from_utf8(bytes) {
        let (good, rest) = bytes.split_at(error.valid_up_to());
        let (bad, rest) = rest.split_at(error.error_len().unwrap_or(rest.len()));
        text += str::from_utf8(good).expect("valid up to here");
        text += &escaped(bad);
        bytes = rest;
    }
    text + str::from_utf8(bytes).expect("the loop ends when it is")
}

/// A word of the command line, or a file's name.
pub fn name(word: &OsStr) -> String {
    shown(&decoded(word.as_bytes()))
}

/// Whether a file (1 standard output, 2 standard error) is a terminal.
pub fn is_terminal(file: c_int) -> bool {
    extern "C" {
        fn isatty(file: c_int) -> c_int;
    }
    // SAFETY: it only looks.
    unsafe { isatty(file) == 1 }
}

#[cfg(test)]
mod tests {
    use super::*;

    #[test]
    fn a_long_text_is_quoted_in_part() {
        assert_eq!((quoted("opne"), quoted(&"é".repeat(80))), ("`opne`".to_string(), format!("`{}`", "é".repeat(80))));
        assert_eq!(quoted(&"a".repeat(81)), format!("`{}..`", "a".repeat(80)));
        assert_eq!(quoted(&"\0".repeat(1_000_000)), format!("`{}..`", "\\x00".repeat(20)));
    }

    #[test]
    fn control_bytes_and_bytes_that_are_no_text_are_shown() {
        assert_eq!(shown("a\x1b[31m\u{85}\x7fé"), "a\\x1b[31m\\xc2\\x85\\x7fé");
        assert_eq!(decoded(b"\xffopen\xc3\xa9 \xe2\x82"), "\\xffopené \\xe2\\x82");
        assert_eq!(name(OsStr::from_bytes(b"\xe9\x07")), "\\xe9\\x07");
    }
}
