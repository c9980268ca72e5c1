//! Arguments outside their kind, which only a caller from C can give: answer 255, before any refusal, and nothing changed.

use super::edits;
use super::generate;
use super::places::Places;
use crate::answer::Reply;
use crate::programs::Program;
use crate::random::Random;
use mpt_monitor::{Answer, Call, Reading, Table, Writing};

/// Codes that are no privilege, kind, permission or strength.
const WILD: [u64; 5] = [9, 10, 255, 1 << 32, u64::MAX];

/// Calls with one argument outside its kind, by its name. The others are any, so that most would be refused.
pub fn calls(random: &mut Random, table: &Table, places: &Places) -> Vec<(&'static str, Call)> {
    let wild = random.pick(&WILD);
    let (no_privilege, no_permission) = (random.pick(&[2, 4, wild]), random.pick(&[4, 5, wild]));
    let no_strength = random.pick(&[2, 3, wild]);
    let lookup = generate::lookup(random, table, places).call();
    let edit = Call::edit(edits::edit(random, table, places));
    let mut calls = Vec::new();
    if let Some(Call::Reading(Reading::Lookup { register, privilege, kind, address })) = lookup {
        let look = |privilege, kind| Call::Reading(Reading::Lookup { register, privilege, kind, address });
        calls.extend([("privilege", look(no_privilege, kind)), ("kind", look(privilege, wild))]);
    }
    if let Call::Writing(Writing::Edit { slot, start, length, limit, .. }) = edit {
        let edit = Writing::Edit { slot, start, length, permission: no_permission, limit };
        calls.push(("permission", Call::Writing(edit)));
    }
    calls.push(("strength", Call::Reading(Reading::Apart { strength: no_strength })));
    calls
}

pub fn check(program: &Program, calls: &[(&str, Call)], table: &Table) -> Result<(), String> {
    let mut after = table.clone();
    for (what, call) in calls {
        let answer = program.monitor().call(&mut after, *call);
        if answer != Answer::OutsideKind {
            let answer = Reply::Call(answer);
            return Err(format!("{}: {what} outside its kind: the answer is {answer}, not 255", program.name));
        }
    }
    let unchanged = after == *table;
    unchanged
        .then_some(())
        .ok_or_else(|| format!("{}: a call with an argument outside its kind changed a word", program.name))
}
