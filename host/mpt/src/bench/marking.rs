//! What the marking of the stores costs: the same proved code, compiled by the same flags, with its
//! stores marked and not.
// the build script says `unmarked`; that it does can't be told to every compiler from 1.63 on
#![allow(unknown_lints, unexpected_cfgs)]

use super::{line, measured, work, Ratios, Subject};

#[cfg(unmarked)]
const UNMARKED: Option<Subject> = Some(Subject { name: "unmarked", program: &unmarked::Unmarked });
#[cfg(not(unmarked))]
const UNMARKED: Option<Subject> = None;

/// Each edit, marked beside unmarked, beyond the whole-table check; nothing if the library is not here.
pub fn edits(subject: Subject, rounds: usize, ratios: &mut Ratios) -> Result<(), String> {
    let unmarked = match UNMARKED {
        Some(unmarked) if subject.name == "proved" => unmarked,
        _ => return Ok(()),
    };
    crate::output::line(format!(
        "\n{:<56} {:>12} {:>12} {:>7}",
        "beyond the whole-table check", "marked", "unmarked", "ratio"
    ));
    for work in work::edits() {
        let row = measured(&work, subject, unmarked, rounds)?;
        line(work.name, work.what, row.beyond);
        ratios.push((format!("marking-{}", work.name), row.ratio_beyond()));
    }
    Ok(())
}

#[cfg(unmarked)]
mod unmarked {
    use mpt_monitor::{word, Answer, Interface, Proved, Reading, View, ViewMut, Writing};

    mod c {
        extern "C" {
            pub fn unmarked_mpt_edit(
                paw: u64,
                first: u64,
                words: *mut u64,
                count: usize,
                slots: *const [u64; 8],
                slot: u64,
                start: u64,
                length: u64,
                permission: u64,
                limit: u64,
            ) -> u64;
            pub fn unmarked_mpt_sound(
                paw: u64,
                first: u64,
                words: *const u64,
                count: usize,
                slots: *const [u64; 8],
            ) -> u64;
        }
    }

    /// Edits and checks by the unmarked library; the other calls, which are not compared, by the marked one.
    pub struct Unmarked;

    // SAFETY: as in mpt_monitor, whose pointers and lengths these are.
    impl Interface for Unmarked {
        #[inline(always)]
        fn read(&self, table: View<'_>, call: Reading) -> Answer {
            let View { frame, words, slots } = table;
            match call {
                Reading::Sound => word::sound(unsafe {
                    c::unmarked_mpt_sound(frame.paw, frame.first.0, words.as_ptr(), words.len(), slots)
                }),
                _ => Proved.read(table, call),
            }
        }

        #[inline(always)]
        fn write(&self, table: ViewMut<'_>, call: Writing) -> Answer {
            let (slot, start, length, permission, limit) = match call {
                Writing::Edit { slot, start, length, permission, limit } => (slot, start, length, permission, limit),
                _ => return Proved.write(table, call),
            };
            let ViewMut { frame, words, slots } = table;
            let (paw, first, at, count) = (frame.paw, frame.first.0, words.as_mut_ptr(), words.len());
            let word = unsafe {
                c::unmarked_mpt_edit(paw, first, at, count, slots, slot.0, start.0, length, permission, limit)
            };
            word::edited(word, start)
        }
    }
}
