//! One sequence of commands on all programs at hand, kept so that it can be run again.

use super::met;
use super::tally::Tally;
use crate::answer::{Outcome, Reply};
use crate::command::Command;
use crate::programs::Program;
use crate::sides::Sides;
use mpt_monitor::{Register, Table, PAGE_WORDS};
use std::cell::RefCell;
use std::panic::{catch_unwind, AssertUnwindSafe};
use std::rc::Rc;

#[derive(Clone)]
pub struct Trial {
    sides: Sides,
    history: History,
    pub tally: Tally,
}

/// What was done so far, last first. Trials that go different ways share what came before.
type History = Option<Rc<Step>>;

struct Step {
    done: Done,
    before: History,
}

enum Done {
    Start(Table),
    Command(Command),
}

thread_local! {
    /// The history at the newest command, for a program that panics in it.
    static NEWEST: RefCell<History> = const { RefCell::new(None) };
}

/// What went wrong, and the commands that show it.
#[derive(Debug, PartialEq, Eq)]
pub struct Failure {
    pub what: String,
    pub script: Vec<Command>,
    /// Whether the last command of the script shows it by itself: the programs differ there.
    pub by_script: bool,
}

impl Trial {
    pub fn new(programs: &[Program]) -> Trial {
        Trial { sides: Sides::new(programs), history: None, tally: Tally::default() }
    }

    /// The table, the same on all sides.
    pub fn table(&self) -> &Table {
        self.sides.table().expect("a trial begins with its frame")
    }

    /// Begins with this table on all sides.
    pub fn start(&mut self, table: Table) {
        self.sides.set(&table);
        met::frame(&table).into_iter().for_each(|class| self.tally.note(class));
        self.did(Done::Start(table));
    }

    fn did(&mut self, done: Done) {
        self.history = Some(Rc::new(Step { done, before: self.history.take() }));
        NEWEST.with(|newest| *newest.borrow_mut() = self.history.clone());
    }

    /// Obeys on all sides; the programs must agree on the answer, every word and every slot.
    pub fn obey(&mut self, command: Command) -> Result<Reply, Failure> {
        self.did(Done::Command(command.clone()));
        match self.sides.obey(&command) {
            Outcome::Answer(reply) => {
                self.note(&command, &reply);
                Ok(reply)
            }
            Outcome::Error(error) => Err(self.failure(format!("a command that should do: {error}"))),
            Outcome::Differ(how) => {
                Err(Failure { by_script: true, ..self.failure(format!("the programs differ\n{how}")) })
            }
        }
    }

    /// Counts the classes that an answer is in.
    fn note(&mut self, command: &Command, reply: &Reply) {
        self.tally.calls += u64::from(command.call().is_some());
        for class in met::classes(self.table(), command, reply) {
            self.tally.note(class);
        }
    }

    /// Fails here if a check does.
    pub fn check(&self, checked: Result<(), String>) -> Result<(), Failure> {
        checked.map_err(|what| self.failure(what))
    }

    fn failure(&self, what: String) -> Failure {
        Failure { what, script: script(&self.history), by_script: false }
    }
}

fn script(history: &History) -> Vec<Command> {
    let mut steps: Vec<&Step> = std::iter::successors(history.as_deref(), |step| step.before.as_deref()).collect();
    steps.reverse();
    let commands = |step: &Step| match &step.done {
        Done::Command(command) => vec![command.clone()],
        Done::Start(table) => commands_of(table),
    };
    steps.into_iter().flat_map(commands).collect()
}

/// The commands that make a table.
fn commands_of(table: &Table) -> Vec<Command> {
    let (paw, first, count) = (table.frame().paw, table.frame().first, table.words().len());
    let frame = Command::Frame { paw, first, pages: count / PAGE_WORDS, extra: count % PAGE_WORDS };
    let filled = |words: &[u64]| -> Vec<(usize, u64)> {
        words.iter().copied().enumerate().filter(|(_, word)| *word != 0).collect()
    };
    let pokes = filled(table.words()).into_iter().map(|(index, word)| Command::Poke { index, word });
    let slots = filled(table.slots()).into_iter();
    let slots = slots.map(|(index, word)| Command::SetSlot { index, register: Register(word) });
    std::iter::once(frame).chain(pokes).chain(slots).collect()
}

/// A program that panics has failed at the newest command.
pub fn catching_panics(run: impl FnOnce() -> Result<Tally, Failure>) -> Result<Tally, Failure> {
    let newest = || NEWEST.with(|newest| newest.borrow_mut().take());
    let panicked = |_| Failure { what: "a program panicked".to_string(), script: script(&newest()), by_script: true };
    let outcome = catch_unwind(AssertUnwindSafe(run)).unwrap_or_else(|panic| Err(panicked(panic)));
    newest();
    outcome
}

#[cfg(test)]
mod tests {
    use super::*;
    use crate::programs::SECOND;
    use mpt_monitor::{Frame, PageNumber, Slot};

    #[test]
    fn a_panic_gives_the_script_up_to_it() {
        let frame = Command::Frame { paw: 32, first: PageNumber(1), pages: 2, extra: 0 };
        let close = Command::Close { slot: Slot(0) };
        let failure = catching_panics(|| {
            let mut trial = Trial::new(&[SECOND]);
            trial.obey(frame.clone())?;
            trial.clone().obey(close.clone())?;
            panic!("as a program might")
        });
        assert_eq!(failure.err().unwrap().script, [frame, close]);
    }

    #[test]
    fn a_script_makes_the_table_that_a_trial_began_with() {
        let mut table = Table::new(Frame { paw: 31, first: PageNumber(7) }, 3);
        table.words_mut()[512] = 5;
        table.slots_mut()[7] = 6;
        let mut trial = Trial::new(&[SECOND]);
        trial.start(table.clone());
        trial.obey(Command::Sound).unwrap();
        let mut again = Sides::new(&[SECOND]);
        for command in trial.failure(String::new()).script {
            assert!(matches!(again.obey(&command), Outcome::Answer(_)), "{command}");
        }
        assert_eq!(again.table(), Some(&table));
    }
}
