//! A table as bytes: 64 bytes of slots, then the words, all little-endian. And its check sum.

use crate::command::{MOST_EXTRA, MOST_PAGES};
use mpt_monitor::{Frame, Table, PAGE_WORDS, SLOTS};

/// Bytes of the eight slots.
const SLOT_BYTES: usize = SLOTS * 8;

pub fn to_bytes(table: &Table) -> Vec<u8> {
    table.slots().iter().chain(table.words()).flat_map(|word| word.to_le_bytes()).collect()
}

pub fn from_bytes(frame: Frame, bytes: &[u8]) -> Result<Table, String> {
    let words = bytes.len().checked_sub(SLOT_BYTES).filter(|rest| rest % 8 == 0).map(|rest| rest / 8);
    let no_image = || format!("{} bytes are no image; an image has 64 and then 8 for each word", bytes.len());
    let count = words.ok_or_else(no_image)?;
    let most = MOST_PAGES * PAGE_WORDS + MOST_EXTRA;
    if count > most {
        return Err(format!("{count} words are too many; at most {most}"));
    }
    let mut all = bytes.chunks_exact(8).map(|eight| u64::from_le_bytes(eight.try_into().expect("eight bytes")));
    let slots = std::array::from_fn(|_| all.next().expect("64 bytes hold eight slots"));
    Ok(Table::from_parts(frame, all.collect(), slots))
}

/// CRC-32 (IEEE) of the image.
pub fn sum(table: &Table) -> u32 {
    let rows = crc_rows();
    let words = table.slots().iter().chain(table.words());
    !words.flat_map(|word| word.to_le_bytes()).fold(!0, |crc: u32, byte| crc >> 8 ^ rows[usize::from(crc as u8 ^ byte)])
}

/// What each low byte adds: the polynomial 0x04C11DB7, lowest bit first.
fn crc_rows() -> [u32; 256] {
    std::array::from_fn(|byte| {
        (0..8).fold(byte as u32, |crc, _| if crc & 1 == 1 { crc >> 1 ^ 0xEDB8_8320 } else { crc >> 1 })
    })
}

#[cfg(test)]
mod tests {
    use super::*;
    use mpt_monitor::PageNumber;

    const FRAME: Frame = Frame { paw: 32, first: PageNumber(1) };

    #[test]
    fn the_sum_is_that_of_any_crc_32() {
        // 72 bytes: `123456789` eight times, whose CRC-32 was taken by zlib
        let text: Vec<u8> = b"123456789".repeat(8);
        let table = from_bytes(FRAME, &text).unwrap();
        assert_eq!(table.words().len(), 1);
        assert_eq!(sum(&table), 0x8811_A440);
    }

    #[test]
    fn bytes_there_and_back() {
        let table = Table::from_parts(
            FRAME,
            (0..1000u64).map(|n| n.wrapping_mul(0x0123_4567_89AB_CDEF)).collect(),
            [1, 2, 3, 4, 5, 6, 7, 8],
        );
        let bytes = to_bytes(&table);
        assert_eq!(bytes[..9], [1, 0, 0, 0, 0, 0, 0, 0, 2]);
        assert_eq!(from_bytes(FRAME, &bytes), Ok(table));
    }

    #[test]
    fn what_is_no_image() {
        for count in [0, 63, 65, 71] {
            assert!(from_bytes(FRAME, &vec![0; count]).is_err(), "{count}");
        }
        assert!(from_bytes(FRAME, &[0; 64]).is_ok());
    }
}
