//! The rules of a sound table, one by one, so that a run shows that each was broken alone.

use super::layout::{entries, linked, open, within_bounds, words_of, INFO, RESERVED};
use mpt_monitor::{Register, Table};

/// "Open slots have MODE 1, WPRI zero, distinct SDIDs, distinct root pages inside the lent memory", and so on.
#[derive(Clone, Copy, Debug, PartialEq, Eq, PartialOrd, Ord)]
pub enum Rule {
    Mode,
    Wpri,
    SdidTwice,
    RootTwice,
    RootNotLent,
    Zero,
    Type,
    FlatInfo,
    PiecesInfo,
    LinkNotLent,
    LinkToRoot,
    LinkTwice,
    LinkTwiceAcross,
    Reserved,
}

impl Rule {
    pub const ALL: [Rule; 14] = [
        Rule::Mode,
        Rule::Wpri,
        Rule::SdidTwice,
        Rule::RootTwice,
        Rule::RootNotLent,
        Rule::Zero,
        Rule::Type,
        Rule::FlatInfo,
        Rule::PiecesInfo,
        Rule::LinkNotLent,
        Rule::LinkToRoot,
        Rule::LinkTwice,
        Rule::LinkTwiceAcross,
        Rule::Reserved,
    ];

    pub fn name(self) -> &'static str {
        match self {
            Rule::Mode => "MODE is not 1",
            Rule::Wpri => "WPRI is not zero",
            Rule::SdidTwice => "an SDID twice",
            Rule::RootTwice => "a root twice",
            Rule::RootNotLent => "a root is not lent",
            Rule::Zero => "ZERO is not zero",
            Rule::Type => "TYPE 5 or 7",
            Rule::FlatInfo => "a 1G type's INFO is not zero",
            Rule::PiecesInfo => "TYPE 6: INFO 43:32 is not zero",
            Rule::LinkNotLent => "an L1 page is not lent",
            Rule::LinkToRoot => "an L1 page is a root",
            Rule::LinkTwice => "an L1 page twice in a domain",
            Rule::LinkTwiceAcross => "an L1 page in two domains",
            Rule::Reserved => "a reserved bit",
        }
    }
}

/// The one rule that a table breaks; nothing if it is sound or breaks several. The frame must be
/// within its bounds.
pub fn broken_alone(table: &Table) -> Option<Rule> {
    debug_assert!(within_bounds(table));
    let mut broken = registers(table);
    let roots: Vec<u64> = open(table).map(|register| register.root().0).collect();
    let mut links: Vec<(u64, usize)> = Vec::new();
    // two slots with one root share its entries: that is one rule broken, not two
    for (domain, register) in open(table).enumerate().filter(|(nth, _)| !roots[..*nth].contains(&roots[*nth])) {
        for &entry in entries(table, register).into_iter().flatten() {
            broken.extend(entry_rule(entry));
            links.extend(linked(entry).filter(|_| entry >> 47 == 0).map(|page| (page, domain)));
        }
    }
    links.sort_unstable();
    for (nth, &(page, domain)) in links.iter().enumerate() {
        broken.extend(link_rules(table, page, &roots));
        if let Some((_, other)) = links[..nth].last().filter(|(last, _)| *last == page) {
            broken.push(if *other == domain { Rule::LinkTwice } else { Rule::LinkTwiceAcross });
        }
    }
    broken.sort_unstable();
    broken.dedup();
    match broken[..] {
        [rule] => Some(rule),
        _ => None,
    }
}

fn registers(table: &Table) -> Vec<Rule> {
    let mut broken = Vec::new();
    let all: Vec<Register> = open(table).collect();
    for (nth, register) in all.iter().enumerate() {
        let twice = |same: &dyn Fn(&Register) -> bool| all[..nth].iter().any(same);
        let rules = [
            (register.mode() != 1, Rule::Mode),
            (register.0 >> 44 & 0x3FF != 0, Rule::Wpri),
            (words_of(table, register.root().0).is_none(), Rule::RootNotLent),
            (twice(&|other| other.sdid() == register.sdid()), Rule::SdidTwice),
            (twice(&|other| other.root() == register.root()), Rule::RootTwice),
        ];
        broken.extend(rules.into_iter().filter(|(broken, _)| *broken).map(|(_, rule)| rule));
    }
    broken
}

fn entry_rule(entry: u64) -> Option<Rule> {
    let info = entry & INFO;
    match entry >> 44 {
        8.. => Some(Rule::Zero),
        5 | 7 => Some(Rule::Type),
        6 => (info >> 32 != 0).then_some(Rule::PiecesInfo),
        4 => None,
        _ => (info != 0).then_some(Rule::FlatInfo),
    }
}

fn link_rules(table: &Table, page: u64, roots: &[u64]) -> Vec<Rule> {
    let at = match words_of(table, page) {
        None => return vec![Rule::LinkNotLent],
        Some(_) if roots.contains(&page) => return vec![Rule::LinkToRoot],
        Some(at) => at,
    };
    let reserved = table.words()[at].iter().any(|word| word & RESERVED != 0);
    reserved.then_some(Rule::Reserved).into_iter().collect()
}

#[cfg(test)]
mod tests {
    use super::*;
    use mpt_monitor::{Frame, PageNumber};

    #[test]
    fn each_rule_is_known_when_it_is_broken_alone() {
        let frame = Frame { paw: 30, first: PageNumber(0x100) };
        let mut sound = Table::new(frame, 5);
        sound.slots_mut()[..2].copy_from_slice(&[0x1040_0000_0000_0100, 0x1080_0000_0000_0101]);
        sound.words_mut()[3] = 4 << 44 | 0x102;
        assert_eq!(broken_alone(&sound), None);
        let with = |word: Option<(usize, u64)>, slot: Option<u64>| {
            let mut table = sound.clone();
            word.into_iter().for_each(|(at, word)| table.words_mut()[at] = word);
            slot.into_iter().for_each(|slot| table.slots_mut()[1] = slot);
            broken_alone(&table)
        };
        let slots = [
            (0x2080_0000_0000_0101, Rule::Mode),
            (0x1080_1000_0000_0101, Rule::Wpri),
            (0x1040_0000_0000_0101, Rule::SdidTwice),
            (0x1080_0000_0000_0105, Rule::RootNotLent),
            (0x1080_0000_0000_0100, Rule::RootTwice),
        ];
        slots.into_iter().for_each(|(slot, rule)| assert_eq!(with(None, Some(slot)), Some(rule)));
        let words = [
            (4, 1 << 47, Rule::Zero),
            (4, 5 << 44, Rule::Type),
            (4, 1 << 44 | 1, Rule::FlatInfo),
            (4, 6 << 44 | 1 << 32, Rule::PiecesInfo),
            (4, 4 << 44 | 0xFF, Rule::LinkNotLent),
            (4, 4 << 44 | 0x101, Rule::LinkToRoot),
            (4, 4 << 44 | 0x102, Rule::LinkTwice),
            (512, 4 << 44 | 0x102, Rule::LinkTwiceAcross),
            (1024, 8, Rule::Reserved),
        ];
        words.into_iter().for_each(|(at, word, rule)| assert_eq!(with(Some((at, word)), None), Some(rule)));
        assert_eq!(with(Some((32, 5 << 44)), None), None, "an entry that is never read");
        assert_eq!(with(Some((4, 5 << 44)), Some(0x2080_0000_0000_0101)), None, "two rules");
    }
}
