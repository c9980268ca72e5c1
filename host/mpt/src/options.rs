//! The command line after the first word.

use crate::output;
use crate::programs::{self, proved_or, Program, PLAIN, PROVED, SECOND};
use std::ffi::OsString;
use std::os::unix::ffi::OsStrExt;
use std::time::{Duration, Instant};

/// Flags by name, and the other words in order.
pub struct Options {
    words: Vec<OsString>,
}

impl Options {
    pub fn new(words: Vec<OsString>) -> Options {
        Options { words }
    }

    /// Takes a flag away if it is there.
    pub fn flag(&mut self, name: &str) -> bool {
        let found = self.words.iter().position(|word| word == name);
        found.map(|at| self.words.remove(at)).is_some()
    }

    /// Takes a flag and the words after it, which are called `what`.
    pub fn values<const N: usize>(&mut self, name: &str, what: &str) -> Result<Option<[OsString; N]>, String> {
        let at = match self.words.iter().position(|word| word == name) {
            Some(at) => at,
            None => return Ok(None),
        };
        let count = self.words[at + 1..].iter().take(N).take_while(|word| !is_flag(word)).count();
        if count < N {
            return Err(format!("{name} needs {what} after it"));
        }
        let values: Vec<OsString> = self.words.drain(at..=at + N).skip(1).collect();
        Ok(values.try_into().ok())
    }

    /// Takes a flag and the word after it.
    pub fn value(&mut self, name: &str) -> Result<Option<OsString>, String> {
        Ok(self.values::<1>(name, "a value")?.map(|[value]| value))
    }

    /// Takes a flag and the number after it.
    pub fn number(&mut self, name: &str) -> Result<Option<u64>, String> {
        self.value(name)?.map(|word| number(name, &word)).transpose()
    }

    /// Takes a flag and the number of seconds after it; when they are over, if that is in any
    /// foreseeable time.
    pub fn end_after(&mut self, name: &str, missing: u64) -> Result<Option<Instant>, String> {
        let seconds = self.number(name)?.unwrap_or(missing);
        Ok(Instant::now().checked_add(Duration::from_secs(seconds)))
    }

    /// Takes the next word that is no flag.
    pub fn word(&mut self) -> Option<OsString> {
        let at = self.words.iter().position(|word| !is_flag(word))?;
        Some(self.words.remove(at))
    }

    /// All words must be taken by now.
    pub fn end(self) -> Result<(), String> {
        match self.words.first() {
            None => Ok(()),
            Some(word) => Err(format!("`{}` is not known here, or is there twice; see `mpt help`", output::name(word))),
        }
    }

    /// The programs asked for by --proved, --second, --plain, --both or --all; `default` if none.
    pub fn programs(&mut self, default: fn() -> Vec<Program>) -> Result<Vec<Program>, String> {
        let names = ["--proved", "--second", "--plain", "--both", "--all"];
        let asked: Vec<&str> = names.into_iter().filter(|name| self.flag(name)).collect();
        match asked[..] {
            [] => Ok(default()),
            ["--second"] => Ok(vec![SECOND]),
            ["--plain"] => Ok(vec![PLAIN]),
            ["--all"] => Ok(programs::all()),
            ["--both"] => Ok(vec![proved_or(PLAIN), SECOND]),
            ["--proved"] => match PROVED {
                Some(program) => Ok(vec![program]),
                None => Err("--proved: this mpt was built without the feature `proved`".to_string()),
            },
            _ => Err(format!("{} can't be asked for together", asked.join(" and "))),
        }
    }
}

fn is_flag(word: &OsString) -> bool {
    word.as_bytes().starts_with(b"--")
}

/// The number that a word is; `name` is what it stands for.
pub fn number(name: &str, word: &OsString) -> Result<u64, String> {
    let text = output::name(word);
    crate::command::number(&text).map_err(|why| format!("{name} `{text}` {why}"))
}

#[cfg(test)]
mod tests {
    use super::*;

    fn options(line: &str) -> Options {
        Options::new(line.split_whitespace().map(OsString::from).collect())
    }

    #[test]
    fn flags_values_and_words_in_any_order() {
        let mut taken = options("--seed 0x10 file --svg out --second -");
        assert_eq!(taken.number("--seed"), Ok(Some(16)));
        assert_eq!(taken.value("--svg"), Ok(Some("out".into())));
        assert_eq!(taken.programs(Vec::new).unwrap()[0].name, "second");
        assert_eq!(taken.word(), Some("file".into()));
        assert_eq!(taken.word(), Some("-".into()));
        assert_eq!(taken.end(), Ok(()));
    }

    #[test]
    fn what_is_wrong_is_named() {
        assert!(options("--image a 1")
            .values::<3>("--image", "FILE PAW FIRST")
            .unwrap_err()
            .contains("FILE PAW FIRST"));
        assert!(options("--seed").number("--seed").unwrap_err().contains("--seed"));
        assert!(options("--seed x").number("--seed").unwrap_err().contains("`x`"));
        assert!(options("--svg --html x").value("--svg").unwrap_err().contains("--svg"));
        assert!(options("--colour").end().unwrap_err().contains("--colour"));
        assert!(options("--second --plain").programs(Vec::new).is_err());
    }

    #[test]
    fn any_number_of_seconds() {
        let end = |line: &str| options(line).end_after("--seconds", 5).unwrap();
        assert!(end("").unwrap() <= Instant::now() + Duration::from_secs(5));
        assert_eq!(end("--seconds 18446744073709551615"), None);
    }
}
