//! The frame: PAW, the lent pages, and the register layout.

/// Words of one entry each in a page of 4,096 bytes.
pub const PAGE_WORDS: usize = 512;
/// Bytes in a page.
pub const PAGE_BYTES: u64 = 4096;

/// What is known of the lent memory beside its words: PAW and the page number of the first page.
#[derive(Clone, Copy, Debug, PartialEq, Eq)]
pub struct Frame {
    pub paw: u64,
    pub first: u64,
}

impl Frame {
    /// PAW 30 to 34; 2 to 256 whole pages; first page at least 1; first + pages at most 2^(PAW-12).
    pub fn within_bounds(&self, words: &[u64]) -> bool {
        let paw_fits = (30..=34).contains(&self.paw);
        let whole = words.len() % PAGE_WORDS == 0;
        let pages = (words.len() / PAGE_WORDS) as u64;
        paw_fits
            && whole
            && (2..=256).contains(&pages)
            && self.first >= 1
            && u128::from(self.first) + u128::from(pages) <= 1 << (self.paw - 12)
    }

    /// The words of a page, or nothing if it is not lent.
    pub fn page<'a>(&self, words: &'a [u64], number: u64) -> Option<&'a [u64]> {
        let at = self.word_index(words, number)?;
        Some(&words[at..at + PAGE_WORDS])
    }

    /// Where a lent page's words begin.
    pub fn word_index(&self, words: &[u64], number: u64) -> Option<usize> {
        let pages = (words.len() / PAGE_WORDS) as u64;
        let nth = number.checked_sub(self.first)?;
        (nth < pages).then(|| nth as usize * PAGE_WORDS)
    }

    /// The page numbers lent, in order.
    pub fn lent_pages(&self, words: &[u64]) -> std::ops::Range<u64> {
        self.first..self.first + (words.len() / PAGE_WORDS) as u64
    }

    /// Blocks of 32 MiB in the address space, so entries of a root that are ever read.
    pub fn blocks(&self) -> usize {
        1 << (self.paw - 25)
    }
}

/// An mmpt value taken apart: PPN 43:0, WPRI 53:44, SDID 59:54, MODE 63:60.
#[derive(Clone, Copy, Debug, PartialEq, Eq)]
pub struct Register {
    pub ppn: u64,
    pub wpri: u64,
    pub sdid: u64,
    pub mode: u64,
}

impl Register {
    pub fn from_word(word: u64) -> Register {
        Register {
            ppn: bits(word, 43, 0),
            wpri: bits(word, 53, 44),
            sdid: bits(word, 59, 54),
            mode: bits(word, 63, 60),
        }
    }

    pub fn to_word(self) -> u64 {
        self.mode << 60 | self.sdid << 54 | self.wpri << 44 | self.ppn
    }
}

/// Bits high:low of a word, as the paper writes them.
pub fn bits(word: u64, high: u32, low: u32) -> u64 {
    let width = high - low + 1;
    (word >> low) & ((1 << width) - 1)
}
