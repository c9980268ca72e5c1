//! Which domains have which pages.

use super::range::{push, Range};
use mpt_monitor::{Permission, SLOTS};
use std::fmt::{self, Display, Formatter};

/// What the domain of each slot may do with a page.
#[derive(Clone, Copy, Debug, PartialEq, Eq)]
pub struct Holders(pub [Permission; SLOTS]);

impl Holders {
    pub fn count(&self) -> usize {
        self.0.iter().filter(|each| **each != Permission::None).count()
    }

    /// Whether one of them may write.
    pub fn may_write(&self) -> bool {
        self.0.iter().any(|each| matches!(each, Permission::Rw | Permission::Rwx))
    }
}

/// `rw: slot 0; rx: slots 1 2`, the strongest first.
impl Display for Holders {
    fn fmt(&self, f: &mut Formatter) -> fmt::Result {
        let mut parts = Vec::new();
        for permission in [Permission::Rwx, Permission::Rw, Permission::Rx] {
            let slots: Vec<String> =
                (0..SLOTS).filter(|slot| self.0[*slot] == permission).map(|slot| slot.to_string()).collect();
            let plural = if slots.len() == 1 { "" } else { "s" };
            if !slots.is_empty() {
                parts.push(format!("{}: slot{plural} {}", permission.name(), slots.join(" ")));
            }
        }
        f.write_str(&parts.join("; "))
    }
}

/// Every range that is open to some domain, with all that have it. Each slot's ranges are in order.
pub fn holders<'a>(slots: impl Iterator<Item = (usize, &'a [Range<Permission>])>) -> Vec<Range<Holders>> {
    let mut changes: Vec<(u64, usize, Permission)> = Vec::new();
    for (slot, ranges) in slots {
        for range in ranges {
            changes.push((range.end, slot, Permission::None));
            changes.push((range.start, slot, range.what));
        }
    }
    // where a range ends and the next begins, the end comes first
    changes.sort_by_key(|&(address, slot, permission)| (address, slot, permission as usize));
    let (mut all, mut from, mut now) = (Vec::new(), 0, Holders([Permission::None; SLOTS]));
    for (address, slot, permission) in changes {
        if from < address && now.count() > 0 {
            push(&mut all, Range { start: from, end: address, what: now });
        }
        from = address;
        now.0[slot] = permission;
    }
    all
}

#[cfg(test)]
mod tests {
    use super::*;
    use Permission::{None, Rw, Rwx, Rx};

    fn by(some: &[(usize, Permission)]) -> Holders {
        let mut each = [None; SLOTS];
        some.iter().for_each(|&(slot, permission)| each[slot] = permission);
        Holders(each)
    }

    #[test]
    fn ranges_are_cut_where_a_domain_comes_or_goes() {
        fn range<T>(start: u64, end: u64, what: T) -> Range<T> {
            Range { start, end, what }
        }
        let zero = [range(0, 4, Rx), range(4, 9, Rw)];
        let three = [range(2, 5, Rwx), range(9, 10, Rx)];
        let all = holders([(0, &zero[..]), (3, &three[..])].into_iter());
        let wanted = [
            (0, 2, by(&[(0, Rx)])),
            (2, 4, by(&[(0, Rx), (3, Rwx)])),
            (4, 5, by(&[(0, Rw), (3, Rwx)])),
            (5, 9, by(&[(0, Rw)])),
            (9, 10, by(&[(3, Rx)])),
        ];
        assert_eq!(all, wanted.map(|(start, end, what)| range(start, end, what)));
    }

    #[test]
    fn holders_are_named_the_strongest_first() {
        let some = by(&[(0, Rx), (2, Rw), (5, Rx)]);
        assert_eq!((some.to_string().as_str(), some.count()), ("rw: slot 2; rx: slots 0 5", 3));
        assert!(some.may_write() && by(&[(1, Rwx)]).may_write() && !by(&[(0, Rx), (1, Rx)]).may_write());
    }
}
