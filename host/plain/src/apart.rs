//! Are the domains kept apart? Page by page only at a page that is at fault: before, sixteen pieces or sixteen fields at once.

use crate::block::{flat_info, BLOCK};
use crate::check::used_pages;
use crate::lent::{Lent, Used, PPN};
use crate::look::walk;
use crate::{Frame, Refusal, Separation, BAD_FRAME, NOT_SOUND, OUTSIDE_KIND};

/// The low bit of each two-bit piece, and of each four-bit field.
const EACH_PIECE: u64 = 0x5555_5555;
const EACH_FIELD: u64 = 0x1111_1111_1111_1111;
/// L1 entries and pages of a piece.
const PIECE_ENTRIES: usize = 32;
const PIECE_PAGES: u64 = 512;

/// Strength 0 lets domains share what none of them may write, 1 nothing.
pub fn apart(frame: Frame, words: &[u64], slots: &[u64; 8], strength: u64) -> Result<Separation, Refusal> {
    if strength > 1 {
        return Err(OUTSIDE_KIND);
    }
    let lent = Lent::new(frame, words.len()).ok_or(BAD_FRAME)?;
    let used = used_pages(lent, words, slots).ok_or(NOT_SOUND)?;
    let domains = Domains::new(lent, words, slots);
    Ok(if strength == 1 { domains.separation::<true>(used) } else { domains.separation::<false>(used) })
}

/// The domains of a sound table.
struct Domains<'a> {
    lent: Lent,
    words: &'a [u64],
    slots: &'a [u64; 8],
    /// The roots of the open slots.
    roots: [&'a [u64; 512]; 8],
    open: usize,
}

/// What was met so far, one bit for each piece or field: open to some domain, open to two, reached by some.
#[derive(Clone, Copy, Default)]
struct Met {
    once: u64,
    twice: u64,
    reached: u64,
}

impl Met {
    /// Adds a domain's permissions: rw and rwx have the high of two bits, and only none has neither.
    #[inline(always)]
    fn add<const STRICT: bool>(&mut self, permissions: u64) {
        let (open, write) = (permissions | permissions >> 1, permissions >> 1);
        self.twice |= self.once & open;
        self.once |= open;
        self.reached |= if STRICT { open } else { write };
    }

    #[inline(always)]
    fn at_fault(self) -> u64 {
        self.twice & self.reached
    }

    /// What was met of a piece, for each of an L1 entry's fields.
    #[inline(always)]
    fn of_piece(self, piece: usize) -> Met {
        let spread = |bits: u64| EACH_FIELD * (bits >> (2 * piece) & 1);
        Met { once: spread(self.once), twice: spread(self.twice), reached: spread(self.reached) }
    }
}

impl<'a> Domains<'a> {
    fn new(lent: Lent, words: &'a [u64], slots: &'a [u64; 8]) -> Domains<'a> {
        let mut domains = Domains { lent, words, slots, roots: [&[0; 512]; 8], open: 0 };
        for register in slots.iter().filter(|&&register| register != 0) {
            domains.roots[domains.open] = domains.page(*register);
            domains.open += 1;
        }
        domains
    }

    /// The page that a register or a TYPE 4 entry names.
    #[inline]
    fn page(&self, naming: u64) -> &'a [u64; 512] {
        let first = ((naming & PPN) - self.lent.first) as usize * 512;
        self.words[first..][..512].try_into().expect("512 words")
    }

    fn separation<const STRICT: bool>(&self, used: Used) -> Separation {
        let reaches = |permission: u64| if STRICT { permission != 0 } else { permission >= 2 };
        let shared = self.lowest_shared::<STRICT>();
        let of_table = self.lowest_table(used, reaches);
        match (of_table, shared) {
            (Some((page, slot, written)), shared) if shared.map_or(true, |shared| page <= shared) => {
                Separation::TableOpen { page, slot, written }
            }
            (_, Some(page)) => self.pair(page, reaches),
            _ => Separation::Apart,
        }
    }

    /// What a slot may do with a page: nothing if it is empty.
    #[inline]
    fn permission(&self, slot: usize, page: u64) -> u64 {
        let register = self.slots[slot];
        if register == 0 {
            return 0;
        }
        walk(self.lent, self.words, register & PPN, page << 12).expect("a sound table's walks end")
    }

    /// The lowest page in use that a slot reaches, the lowest such slot, and whether it may write the page.
    fn lowest_table(&self, used: Used, reaches: impl Fn(u64) -> bool) -> Option<(u64, u64, bool)> {
        for page in used.marked().map(|nth| self.lent.first + nth as u64) {
            for slot in 0..8 {
                let permission = self.permission(slot, page);
                if reaches(permission) {
                    return Some((page, slot as u64, permission >= 2));
                }
            }
        }
        None
    }

    /// The lowest two slots that share a page, one of which reaches it.
    fn pair(&self, page: u64, reaches: impl Fn(u64) -> bool) -> Separation {
        let each: [u64; 8] = std::array::from_fn(|slot| self.permission(slot, page));
        let is_shared = |one: u64, two: u64| one != 0 && two != 0 && (reaches(one) || reaches(two));
        let pairs = (0..8).flat_map(|slot| (slot + 1..8).map(move |other| (slot, other)));
        let (slot, other) =
            pairs.into_iter().find(|&(slot, other)| is_shared(each[slot], each[other])).expect("two slots");
        let written = each[slot] >= 2 || each[other] >= 2;
        Separation::PageShared { page, slot: slot as u64, other: other as u64, written }
    }

    /// The lowest page that is open to two domains, of which one reaches it.
    fn lowest_shared<const STRICT: bool>(&self) -> Option<u64> {
        let found = |block: usize| Some(block as u64 * BLOCK + self.shared_in_block::<STRICT>(block)?);
        (0..self.lent.blocks()).find_map(found)
    }

    #[inline]
    fn shared_in_block<const STRICT: bool>(&self, block: usize) -> Option<u64> {
        let (mut met, mut tables, mut count) = (Met::default(), [&[0; 512]; 8], 0);
        for root in &self.roots[..self.open] {
            let entry = root[block];
            if entry >> 44 == 4 {
                tables[count] = self.page(entry);
                count += 1;
            } else {
                met.add::<STRICT>(flat_info(entry));
            }
        }
        match count {
            0 => lowest(met.at_fault() & EACH_PIECE).map(|bit| bit / 2 * PIECE_PAGES),
            1 if met.once & EACH_PIECE == 0 => None,
            _ => Self::shared_in_tables::<STRICT>(met, &tables[..count]),
        }
    }

    /// In a block that some domains have by L1 pages; `met` is what the others have of its pieces.
    fn shared_in_tables<const STRICT: bool>(met: Met, tables: &[&[u64; 512]]) -> Option<u64> {
        for piece in 0..16 {
            let others = met.of_piece(piece);
            for entry in piece * PIECE_ENTRIES..(piece + 1) * PIECE_ENTRIES {
                let mut met = others;
                tables.iter().for_each(|table| met.add::<STRICT>(table[entry]));
                if let Some(bit) = lowest(met.at_fault() & EACH_FIELD) {
                    return Some(entry as u64 * 16 + bit / 4);
                }
            }
        }
        None
    }
}

/// The number of the lowest bit that is set.
#[inline]
fn lowest(bits: u64) -> Option<u64> {
    (bits != 0).then(|| bits.trailing_zeros().into())
}
