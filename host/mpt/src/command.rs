//! The language of `mpt run`: one command a line.

pub use crate::fields::number;

use crate::fields::Fields;
use crate::output::quoted;
use mpt_monitor::{Address, Call, Edit, Kind, PageNumber, Permission, Privilege, Register, Sdid, Slot, Strength};
use std::fmt;

#[derive(Clone, Debug, PartialEq, Eq)]
pub enum Command {
    Frame { paw: u64, first: PageNumber, pages: usize, extra: usize },
    Poke { index: usize, word: u64 },
    SetSlot { index: usize, register: Register },
    Peek { index: usize, count: usize },
    Slots,
    Open { slot: Slot, sdid: Sdid },
    Close { slot: Slot },
    Edit(Edit),
    Lookup { register: Register, privilege: Privilege, kind: Kind, address: Address },
    Sound,
    Apart(Strength),
    Free,
    Sum,
    Save(String),
    Load(String),
}

/// The most pages and further words that `frame` makes: far past the bounds, so that bad frames
/// can be tried.
pub const MOST_PAGES: usize = 16384;
pub const MOST_EXTRA: usize = 511;

/// Each command with its form.
const FORMS: [(&str, &str); 15] = [
    ("frame", "frame PAW FIRST PAGES [EXTRA]"),
    ("poke", "poke INDEX WORD"),
    ("slot", "slot INDEX REGISTER"),
    ("peek", "peek INDEX [COUNT]"),
    ("slots", "slots"),
    ("open", "open SLOT SDID"),
    ("close", "close SLOT"),
    ("edit", "edit SLOT START LENGTH none|rx|rw|rwx LIMIT"),
    ("lookup", "lookup REGISTER m|s|u KIND ADDRESS"),
    ("sound", "sound"),
    ("apart", "apart [strict]"),
    ("free", "free"),
    ("sum", "sum"),
    ("save", "save FILE"),
    ("load", "load FILE"),
];

impl Command {
    /// The call that a command makes, if it makes one.
    pub fn call(&self) -> Option<Call> {
        match *self {
            Command::Open { slot, sdid } => Some(Call::open(slot, sdid)),
            Command::Close { slot } => Some(Call::close(slot)),
            Command::Edit(edit) => Some(Call::edit(edit)),
            Command::Lookup { register, privilege, kind, address } => {
                Some(Call::lookup(register, privilege, kind, address))
            }
            Command::Sound => Some(Call::sound()),
            Command::Apart(strength) => Some(Call::apart(strength)),
            _ => None,
        }
    }
}

/// The names of the kinds, in the order of their codes.
pub const KINDS: [&str; 9] =
    ["fetch", "load", "store", "walk-fetch", "walk-load", "walk-store", "update-fetch", "update-load", "update-store"];

/// Reads a line: nothing if it is blank or a comment.
pub fn parse(line: &str) -> Result<Option<Command>, String> {
    let line = without_comment(line).trim();
    let name = match line.split_whitespace().next() {
        Some(name) => name,
        None => return Ok(None),
    };
    let (_, form) = FORMS.iter().find(|(known, _)| *known == name).ok_or_else(|| {
        let known: Vec<&str> = FORMS.iter().map(|(known, _)| *known).collect();
        format!("no command {}; the commands are {}", quoted(name), known.join(", "))
    })?;
    let mut fields = Fields::after_name(form, line);
    let command = match name {
        "save" | "load" => file_command(name, line[name.len()..].trim(), form)?,
        _ => {
            let command = command(name, &mut fields)?;
            fields.end()?;
            command
        }
    };
    Ok(Some(command))
}

/// A comment runs from a `#` that begins a word to the end of the line.
fn without_comment(line: &str) -> &str {
    let begins = |(at, _): &(usize, &str)| line[..*at].chars().next_back().map_or(true, char::is_whitespace);
    line.match_indices('#').find(begins).map_or(line, |(at, _)| &line[..at])
}

fn file_command(name: &str, file: &str, form: &str) -> Result<Command, String> {
    match (name, file) {
        (_, "") => Err(format!("FILE is missing; the form is `{form}`")),
        ("save", _) => Ok(Command::Save(file.to_string())),
        _ => Ok(Command::Load(file.to_string())),
    }
}

fn command(name: &str, fields: &mut Fields) -> Result<Command, String> {
    Ok(match name {
        "frame" => Command::Frame {
            paw: fields.number("PAW")?,
            first: PageNumber(fields.number("FIRST")?),
            pages: fields.small("PAGES", MOST_PAGES)?,
            extra: fields.small_or("EXTRA", MOST_EXTRA, 0)?,
        },
        "poke" => Command::Poke { index: fields.index("INDEX")?, word: fields.number("WORD")? },
        "slot" => Command::SetSlot { index: fields.small("INDEX", 7)?, register: Register(fields.number("REGISTER")?) },
        "peek" => Command::Peek { index: fields.index("INDEX")?, count: fields.small_or("COUNT", usize::MAX, 1)? },
        "slots" => Command::Slots,
        "open" => Command::Open { slot: Slot(fields.number("SLOT")?), sdid: Sdid(fields.number("SDID")?) },
        "close" => Command::Close { slot: Slot(fields.number("SLOT")?) },
        "edit" => Command::Edit(edit(fields)?),
        "lookup" => lookup(fields)?,
        "sound" => Command::Sound,
        "apart" => match fields.word() {
            None => Command::Apart(Strength::Sharing),
            Some("strict") => Command::Apart(Strength::Strict),
            Some(text) => {
                return Err(format!("{} is not known; the form is `apart` or `apart strict`", quoted(text)));
            }
        },
        "free" => Command::Free,
        _ => Command::Sum,
    })
}

fn edit(fields: &mut Fields) -> Result<Edit, String> {
    Ok(Edit {
        slot: Slot(fields.number("SLOT")?),
        start: Address(fields.number("START")?),
        length: fields.number("LENGTH")?,
        permission: fields.one_of("permission", &Permission::ALL.map(|each| (each.name(), each)))?,
        limit: fields.number("LIMIT")?,
    })
}

fn lookup(fields: &mut Fields) -> Result<Command, String> {
    let privileges = [("m", Privilege::Machine), ("s", Privilege::Supervisor), ("u", Privilege::User)];
    let kinds: Vec<(&str, Kind)> = KINDS.into_iter().zip(Kind::all()).collect();
    Ok(Command::Lookup {
        register: Register(fields.number("REGISTER")?),
        privilege: fields.one_of("privilege", &privileges)?,
        kind: fields.one_of("KIND", &kinds)?,
        address: Address(fields.number("ADDRESS")?),
    })
}

/// A command as a line that can be read again.
impl fmt::Display for Command {
    fn fmt(&self, f: &mut fmt::Formatter) -> fmt::Result {
        match self {
            Command::Frame { paw, first, pages, extra: 0 } => write!(f, "frame {paw} {:#x} {pages}", first.0),
            Command::Frame { paw, first, pages, extra } => write!(f, "frame {paw} {:#x} {pages} {extra}", first.0),
            Command::Poke { index, word } => write!(f, "poke {index} {word:#x}"),
            Command::SetSlot { index, register } => write!(f, "slot {index} {:#x}", register.0),
            Command::Peek { index, count } => write!(f, "peek {index} {count}"),
            Command::Slots => f.write_str("slots"),
            Command::Open { slot, sdid } => write!(f, "open {} {}", slot.0, sdid.0),
            Command::Close { slot } => write!(f, "close {}", slot.0),
            Command::Edit(Edit { slot, start, length, permission, limit }) => {
                write!(f, "edit {} {:#x} {length:#x} {} {limit}", slot.0, start.0, permission.name())
            }
            Command::Lookup { register, privilege, kind, address } => {
                let (privilege, kind) = (privilege_letter(*privilege), KINDS[kind.code() as usize]);
                write!(f, "lookup {:#x} {privilege} {kind} {:#x}", register.0, address.0)
            }
            Command::Sound => f.write_str("sound"),
            Command::Apart(Strength::Sharing) => f.write_str("apart"),
            Command::Apart(Strength::Strict) => f.write_str("apart strict"),
            Command::Free => f.write_str("free"),
            Command::Sum => f.write_str("sum"),
            Command::Save(file) => write!(f, "save {file}"),
            Command::Load(file) => write!(f, "load {file}"),
        }
    }
}

/// The letter of a privilege, as `lookup` takes it.
fn privilege_letter(privilege: Privilege) -> char {
    match privilege {
        Privilege::User => 'u',
        Privilege::Supervisor => 's',
        Privilege::Machine => 'm',
    }
}

#[cfg(test)]
mod tests {
    use super::*;
    use mpt_monitor::Access;

    #[test]
    fn lines() {
        assert_eq!(parse("  "), Ok(None));
        assert_eq!(parse("# frame"), Ok(None));
        assert_eq!(parse("close 3 # done"), Ok(Some(Command::Close { slot: Slot(3) })));
        let save = Command::Save("a#b c".to_string());
        assert_eq!(parse("save  a#b c "), Ok(Some(save)));
        let kind = Kind::PageTableRead(Access::Store);
        let lookup = Command::Lookup { register: Register(1), privilege: Privilege::User, kind, address: Address(2) };
        assert_eq!(parse("lookup 0x1 u walk-store 2"), Ok(Some(lookup)));
        assert_eq!(parse("peek 4"), Ok(Some(Command::Peek { index: 4, count: 1 })));
    }

    #[test]
    fn a_command_is_written_as_it_is_read() {
        let lines = [
            "frame 32 0x80000 16",
            "frame 0 0x0 2 511",
            "poke 7 0xffffffffffffffff",
            "slot 7 0x1",
            "peek 3 4",
            "open 9 64",
            "close 18446744073709551615",
            "edit 0 0x1000 0x2000 rwx 0",
            "lookup 0x5 s update-fetch 0x6",
            "lookup 0x5 m walk-load 0x6",
            "sound",
            "apart",
            "apart strict",
            "save a b",
        ];
        for line in lines {
            assert_eq!(parse(line).unwrap().unwrap().to_string(), line);
        }
    }

    #[test]
    fn errors_say_what_would_be_right() {
        let error = |line| parse(line).unwrap_err();
        assert!(error("opne 0 5").contains("open"));
        assert!(error("open 0").contains("SDID is missing"));
        assert!(error("open 0 5 6").contains("`open SLOT SDID`"));
        assert!(error("edit 0 0 4096 wr 5").contains("none, rx, rw, rwx"));
        assert!(error("frame 32 1 16385").contains("at most 16384"));
        assert!(error("slot 8 0").contains("at most 7"));
        assert!(error("load").contains("FILE is missing"));
        assert_eq!(error("apart stric"), "`stric` is not known; the form is `apart` or `apart strict`");
        assert!(error("apart strict 1").contains("`apart [strict]`"));
    }
}
