//! What a command of `mpt run` comes to, as a value, and the one place where it becomes text.

use mpt_monitor::{Answer, Edited, Fence, PageNumber, Separation, Verdict};
use std::fmt::{self, Display, Formatter};

/// The answer to a command.
#[derive(Clone, Debug, PartialEq, Eq)]
pub enum Reply {
    /// A command that has nothing to tell.
    Done,
    Words(Vec<u64>),
    Sum(u32),
    Free(Free),
    /// What the monitor answered to a call.
    Call(Answer),
}

/// How many pages are free.
#[derive(Clone, Copy, Debug, PartialEq, Eq)]
pub enum Free {
    Pages(usize),
    BadFrame,
    NotSound,
}

/// Why a command can't be done. Nothing has changed.
#[derive(Clone, Debug, PartialEq, Eq)]
pub enum Error {
    /// A line that is no command, and what would be right.
    Unreadable(String),
    NoFrame,
    /// `peek` of no word at all.
    NoCount,
    /// Words that are not all there.
    Outside {
        index: usize,
        many: usize,
        count: usize,
    },
    File {
        file: String,
        why: String,
    },
}

/// What came of a command.
#[derive(Clone, Debug, PartialEq, Eq)]
pub enum Outcome {
    Answer(Reply),
    Error(Error),
    Differ(Difference),
}

/// How programs differ after the same command. Each thing has its program's name.
#[derive(Clone, Debug, PartialEq, Eq)]
pub enum Difference {
    Answers(Vec<(&'static str, Result<Reply, Error>)>),
    Slot { index: usize, is: [(&'static str, u64); 2] },
    Word { index: usize, is: [(&'static str, u64); 2] },
    Length([(&'static str, usize); 2]),
}

impl Reply {
    /// The edit, if the call was one and was accepted.
    pub fn edited(&self) -> Option<Edited> {
        match self {
            Reply::Call(Answer::Edited(edited)) => Some(*edited),
            _ => None,
        }
    }
}

impl Display for Reply {
    fn fmt(&self, f: &mut Formatter) -> fmt::Result {
        match self {
            Reply::Done => f.write_str("ok"),
            Reply::Words(words) => {
                let words: Vec<String> = words.iter().map(|word| format!("{word:016x}")).collect();
                f.write_str(&words.join(" "))
            }
            Reply::Sum(sum) => write!(f, "{sum:08x}"),
            Reply::Free(Free::Pages(count)) => write!(f, "free {count}"),
            Reply::Free(Free::BadFrame) => f.write_str("free unknown: the frame breaks its bounds"),
            Reply::Free(Free::NotSound) => f.write_str("free unknown: the table is not sound"),
            Reply::Call(answer) => call(*answer, f),
        }
    }
}

fn call(answer: Answer, f: &mut Formatter) -> fmt::Result {
    match answer {
        Answer::Refused(refusal) => write!(f, "refused {}", refusal.number()),
        Answer::OutsideKind => f.write_str("a code outside its kind"),
        Answer::Looked(Verdict::Allowed) => f.write_str("allowed"),
        Answer::Looked(Verdict::Fault(cause)) => write!(f, "fault {}", cause.number()),
        Answer::Opened(register) => write!(f, "opened {register}"),
        Answer::Closed(asked) => {
            f.write_str("closed ")?;
            fence(asked, f)
        }
        Answer::Edited(Edited { stores, all, fence: asked }) => {
            write!(f, "edited {stores} {} ", if all { "all" } else { "part" })?;
            fence(asked, f)
        }
        Answer::Sound => f.write_str("sound"),
        Answer::Tested(tested) => separation(tested, f),
        Answer::Unknown(word) => write!(f, "the word {word:#x}, which mpt.h does not name for this call"),
    }
}

fn separation(separation: Separation, f: &mut Formatter) -> fmt::Result {
    let address = |page: PageNumber| u128::from(page.0) << 12;
    match separation {
        Separation::Apart => f.write_str("apart"),
        Separation::TableOpen { page, slot, .. } => write!(f, "table {:#x} {}", address(page), slot.0),
        Separation::PageShared { page, slot, other, .. } => {
            write!(f, "shared {:#x} {} {}", address(page), slot.0, other.0)
        }
    }
}

/// What an answer holds that its line in `mpt run` does not tell.
fn untold(reply: &Reply) -> &'static str {
    use Separation::{PageShared, TableOpen};
    match reply {
        Reply::Call(Answer::Tested(TableOpen { written, .. } | PageShared { written, .. })) => match written {
            true => " (which may be written)",
            false => " (which may not be written)",
        },
        _ => "",
    }
}

fn fence(fence: Fence, f: &mut Formatter) -> fmt::Result {
    match fence {
        Fence::None => f.write_str("fence none"),
        Fence::Domain(sdid) => write!(f, "fence domain {}", sdid.0),
        Fence::Address(address, sdid) => write!(f, "fence address {:#x} {}", address.0, sdid.0),
    }
}

impl Display for Error {
    fn fmt(&self, f: &mut Formatter) -> fmt::Result {
        match self {
            Error::Unreadable(why) => f.write_str(why),
            Error::NoFrame => f.write_str("there is no memory yet; begin with `frame PAW FIRST PAGES`"),
            Error::NoCount => f.write_str("COUNT 0 asks for nothing; at least 1"),
            Error::Outside { count: 0, .. } => f.write_str("the memory has no words"),
            Error::Outside { index, many: 1, count } => {
                write!(f, "word {index} is not there; the words are 0 to {}", count - 1)
            }
            Error::Outside { index, many, count } => {
                write!(f, "{many} words from {index} are not all there; the words are 0 to {}", count - 1)
            }
            Error::File { file, why } => write!(f, "{file}: {why}"),
        }
    }
}

impl Display for Difference {
    fn fmt(&self, f: &mut Formatter) -> fmt::Result {
        let words = |f: &mut Formatter, what: &str, index: usize, [one, other]: [(&str, u64); 2]| {
            writeln!(f, "{}: {what} {index} is {:016x}", one.0, one.1)?;
            write!(f, "{}: {what} {index} is {:016x}", other.0, other.1)
        };
        match self {
            Difference::Answers(answers) => {
                let line = |(name, answer): &(&str, Result<Reply, Error>)| match answer {
                    Ok(reply) => format!("{name}: {reply}{}", untold(reply)),
                    Err(error) => format!("{name}: {error}"),
                };
                f.write_str(&answers.iter().map(line).collect::<Vec<_>>().join("\n"))
            }
            Difference::Slot { index, is } => words(f, "slot", *index, *is),
            Difference::Word { index, is } => words(f, "word", *index, *is),
            Difference::Length([one, other]) => {
                let words = |count| if count == 1 { "1 word".to_string() } else { format!("{count} words") };
                write!(f, "{}: {}\n{}: {}", one.0, words(one.1), other.0, words(other.1))
            }
        }
    }
}
