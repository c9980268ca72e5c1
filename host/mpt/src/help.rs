//! `mpt help`, and `--help` after any command.

use crate::options::Options;
use crate::output;

const HELP: &str = include_str!("help.txt");

/// All of it, or what a command named after it does.
pub fn main(mut options: Options) -> Result<u8, String> {
    let name = options.word();
    options.end()?;
    match name {
        Some(name) => of(&output::name(&name)),
        None => {
            output::text(HELP);
            Ok(0)
        }
    }
}

/// The part about one command, and what is said of all.
pub fn of(name: &str) -> Result<u8, String> {
    let about = part(&format!("mpt {name} ")).ok_or_else(|| format!("no command `{name}`; see `mpt help`"))?;
    let mut parts = vec![about];
    if about.contains("[PROGRAM]") {
        parts.extend(part("PROGRAM "));
    }
    parts.extend(part("Exit status"));
    output::text(&(parts.join("\n\n") + "\n"));
    Ok(0)
}

/// The paragraph that begins so.
fn part(begin: &str) -> Option<&'static str> {
    HELP.trim_end().split("\n\n").find(|part| part.starts_with(begin))
}

#[cfg(test)]
mod tests {
    use super::*;

    #[test]
    fn every_command_has_its_part() {
        for (name, _) in crate::COMMANDS {
            assert!(part(&format!("mpt {name} ")).is_some(), "{name}");
        }
        assert!(part("PROGRAM ").is_some() && part("Exit status").is_some());
        assert_eq!(HELP.lines().find(|line| line.chars().count() > 110), None);
    }
}
