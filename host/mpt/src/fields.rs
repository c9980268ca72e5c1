//! The words of a command line, read as numbers and names.

use crate::output::quoted;
use std::str::SplitWhitespace;

/// The words of a line after its first.
pub struct Fields<'a> {
    form: &'a str,
    rest: SplitWhitespace<'a>,
}

impl<'a> Fields<'a> {
    /// Of a line that begins with its command's name; `form` is what it should look like.
    pub fn after_name(form: &'a str, line: &'a str) -> Fields<'a> {
        let mut rest = line.split_whitespace();
        rest.next();
        Fields { form, rest }
    }

    fn next(&mut self, name: &str) -> Result<&'a str, String> {
        self.rest.next().ok_or_else(|| format!("{name} is missing; the form is `{}`", self.form))
    }

    pub fn number(&mut self, name: &str) -> Result<u64, String> {
        let text = self.next(name)?;
        number(text).map_err(|why| format!("{name} {} {why}", quoted(text)))
    }

    pub fn index(&mut self, name: &str) -> Result<usize, String> {
        self.small(name, usize::MAX)
    }

    pub fn small(&mut self, name: &str, most: usize) -> Result<usize, String> {
        let number = self.number(name)?;
        match usize::try_from(number) {
            Ok(small) if small <= most => Ok(small),
            _ => Err(format!("{name} {number} is too large; at most {most}")),
        }
    }

    pub fn small_or(&mut self, name: &str, most: usize, missing: usize) -> Result<usize, String> {
        if self.rest.clone().next().is_none() {
            Ok(missing)
        } else {
            self.small(name, most)
        }
    }

    pub fn one_of<T: Copy>(&mut self, name: &str, known: &[(&str, T)]) -> Result<T, String> {
        let text = self.next(name)?;
        known.iter().find(|(word, _)| *word == text).map(|&(_, value)| value).ok_or_else(|| {
            let words: Vec<&str> = known.iter().map(|(word, _)| *word).collect();
            format!("{name} {} is not known; it is one of {}", quoted(text), words.join(", "))
        })
    }

    /// The next field, if there is one more.
    pub fn word(&mut self) -> Option<&'a str> {
        self.rest.next()
    }

    pub fn end(&mut self) -> Result<(), String> {
        match self.rest.next() {
            None => Ok(()),
            Some(text) => Err(format!("{} is too much; the form is `{}`", quoted(text), self.form)),
        }
    }
}

/// A number, decimal or 0x and hex, up to 2^64 - 1.
pub fn number(text: &str) -> Result<u64, String> {
    let (digits, radix) = match text.strip_prefix("0x") {
        Some(digits) => (digits, 16),
        None => (text, 10),
    };
    if digits.is_empty() || !digits.chars().all(|digit| digit.is_digit(radix)) {
        return Err("is no number; write decimal digits, or 0x and hex digits".to_string());
    }
    u64::from_str_radix(digits, radix).map_err(|_| "is above 2^64 - 1".to_string())
}

#[cfg(test)]
mod tests {
    use super::*;

    #[test]
    fn numbers() {
        assert_eq!(number("18446744073709551615"), Ok(u64::MAX));
        assert_eq!(number("0xFFFFffffFFFFffff"), Ok(u64::MAX));
        assert_eq!(number("007"), Ok(7));
        for bad in ["", "0x", "+5", "-1", "0x+5", "1_000", "12a", "18446744073709551616", "0x10000000000000000"] {
            assert!(number(bad).is_err(), "{bad}");
        }
    }
}
