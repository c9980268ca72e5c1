//! One block by words: what it will be when an edit is done, without looking at pages one by one.

/// A two-bit permission sixteen times, as TYPE 6 has it.
#[inline]
pub fn spread2(permission: u64) -> u64 {
    permission * 0x5555_5555
}

/// A four-bit field sixteen times, as an L1 entry has it.
#[inline]
pub fn spread4(permission: u64) -> u64 {
    permission * 0x1111_1111_1111_1111
}

/// Divided and rounded up.
#[inline]
fn ceil(number: u64, by: u64) -> u64 {
    (number + by - 1) / by
}

/// The part of an edit's range that lies in one block, in pages of that block: `from..to`.
#[derive(Clone, Copy)]
pub struct Span {
    pub from: u64,
    pub to: u64,
}

/// Pages in a block and in a piece.
pub const BLOCK: u64 = 8192;
const PIECE: u64 = 512;

impl Span {
    /// The part of `from..to` (page numbers) in a block.
    #[inline]
    pub fn of(block: u64, from: u64, to: u64) -> Span {
        let base = block * BLOCK;
        let inside = |page: u64| page.clamp(base, base + BLOCK) - base;
        Span { from: inside(from), to: inside(to) }
    }

    #[inline]
    pub fn is_empty(self) -> bool {
        self.from >= self.to
    }

    #[inline]
    pub fn is_whole(self) -> bool {
        self.from == 0 && self.to == BLOCK
    }

    /// The L1 entries that have any page in the span.
    #[inline]
    pub fn entries(self) -> std::ops::Range<u64> {
        self.from / 16..ceil(self.to, 16)
    }

    /// The fields of an L1 entry that the span covers, all four bits of each.
    #[inline]
    pub fn mask(self, entry: u64) -> u64 {
        let base = entry * 16;
        if self.from <= base && base + 16 <= self.to {
            return u64::MAX;
        }
        let below = |page: u64| match page.saturating_sub(base) {
            fields @ 0..=15 => (1u64 << (4 * fields)) - 1,
            _ => u64::MAX,
        };
        below(self.to) & !below(self.from)
    }

    /// Of a TYPE 6 entry's info, the bits of pieces that lie wholly in the span.
    #[inline]
    fn whole_pieces(self) -> u64 {
        let below = |piece: u64| (1u64 << (2 * piece)) - 1;
        below(self.to / PIECE) & !below(ceil(self.from, PIECE))
    }

    /// Of a TYPE 6 entry's info, the bits of pieces that have any page in the span.
    #[inline]
    fn met_pieces(self) -> u64 {
        let below = |piece: u64| (1u64 << (2 * piece)) - 1;
        below(ceil(self.to, PIECE)) & !below(self.from / PIECE)
    }
}

/// TYPE 6 info of a block that is no TYPE 4 now; nothing if the edit leaves a piece mixed.
#[inline]
pub fn pieces_of_flat(entry: u64, span: Span, permission: u64) -> Option<u64> {
    let info = flat_info(entry);
    if span.is_empty() {
        return Some(info);
    }
    let asked = spread2(permission);
    let (whole, met) = (span.whole_pieces(), span.met_pieces());
    ((info ^ asked) & met & !whole == 0).then_some(info & !whole | asked & whole)
}

/// TYPE 6 info that says what an entry says that is no TYPE 4.
#[inline]
pub fn flat_info(entry: u64) -> u64 {
    if entry >> 44 == 6 {
        entry & 0xFFFF_FFFF
    } else {
        spread2(entry >> 44)
    }
}

/// TYPE 6 info of a block that is TYPE 4 now; nothing if the edit leaves a piece mixed.
#[inline]
pub fn pieces_of_table(page: &[u64; 512], span: Span, permission: u64) -> Option<u64> {
    let mut info = 0;
    for (number, piece) in page.chunks_exact(32).enumerate() {
        let piece: &[u64; 32] = piece.try_into().expect("32 words");
        let base = number as u64 * PIECE;
        let covered = span.from.max(base)..span.to.min(base + PIECE);
        let one = if covered.is_empty() {
            uniform(piece)?
        } else if covered.end - covered.start == PIECE {
            permission
        } else {
            rest_is(piece, base / 16, span, permission).then_some(permission)?
        };
        info |= one << (2 * number);
    }
    Some(info)
}

/// The one permission of a piece's 512 fields.
#[inline]
fn uniform(piece: &[u64; 32]) -> Option<u64> {
    let permission = piece[0] & 3;
    let want = spread4(permission);
    (piece.iter().fold(0, |all, entry| all | entry ^ want) == 0).then_some(permission)
}

/// Whether every field of a piece outside the span has the permission already. The piece's first
/// entry is `base`, and the span meets it.
#[inline]
fn rest_is(piece: &[u64; 32], base: u64, span: Span, permission: u64) -> bool {
    let want = spread4(permission);
    let met = span.entries();
    let (low, high) = (met.start.max(base), met.end.min(base + 32));
    let differs = |words: &[u64]| words.iter().fold(0, |all, word| all | word ^ want);
    let edge = |entry: u64| (piece[(entry - base) as usize] ^ want) & !span.mask(entry);
    let outside = differs(&piece[..(low - base) as usize]) | differs(&piece[(high - base) as usize..]);
    outside | edge(low) | edge(high - 1) == 0
}

/// Fills an L1 page for a block that is no TYPE 4 now, with the edit in it.
pub fn fill_table(page: &mut [u64; 512], entry: u64, span: Span, permission: u64) {
    let info = flat_info(entry);
    for (number, piece) in page.chunks_exact_mut(32).enumerate() {
        piece.fill(spread4(info >> (2 * number) & 3));
    }
    for entry in span.entries() {
        let word = &mut page[entry as usize];
        *word = changed(*word, entry, span, permission);
    }
}

/// An L1 entry with the edit in it.
#[inline]
pub fn changed(word: u64, entry: u64, span: Span, permission: u64) -> u64 {
    let mask = span.mask(entry);
    word & !mask | spread4(permission) & mask
}
