//! `mpt`: runs, tests, measures and draws memory protection tables.

mod answer;
mod apart;
mod bench;
mod cases;
mod command;
mod fields;
mod fuzz;
mod help;
mod image;
mod map;
mod options;
mod output;
mod programs;
mod random;
mod run;
mod sides;
mod test;
mod undone;

use options::Options;
use std::ffi::OsString;
use std::process::ExitCode;

/// What a command does with the words after its name; the exit status, or what was wrong.
type Work = fn(Options) -> Result<u8, String>;

const COMMANDS: [(&str, Work); 7] = [
    ("run", run::main),
    ("cases", cases::main),
    ("map", map::main),
    ("apart", apart::main),
    ("test", test::main),
    ("fuzz", fuzz::main),
    ("bench", bench::main),
];

fn main() -> ExitCode {
    match work(std::env::args_os().skip(1).collect()) {
        Ok(status) => ExitCode::from(status),
        Err(error) => {
            output::complain(error);
            ExitCode::from(run::WRONG)
        }
    }
}

fn work(mut words: Vec<OsString>) -> Result<u8, String> {
    if words.is_empty() {
        return Err("what shall be done? See `mpt help`".to_string());
    }
    let name = output::name(&words.remove(0));
    let mut options = Options::new(words);
    match name.as_str() {
        "help" | "--help" | "-h" => help::main(options),
        "version" | "--version" | "-V" => version(options),
        name => {
            let known = COMMANDS.iter().find(|(known, _)| *known == name);
            let (known, work) = known.ok_or_else(|| format!("no command `{name}`; see `mpt help`"))?;
            if options.flag("--help") || options.flag("-h") {
                return help::of(known);
            }
            work(options)
        }
    }
}

fn version(options: Options) -> Result<u8, String> {
    options.end()?;
    let library = if programs::PROVED.is_some() { "with" } else { "without" };
    output::line(format!("mpt {}, {library} the proved library", env!("CARGO_PKG_VERSION")));
    Ok(0)
}
