//! Frames: most are good, of all widths and sizes; some break one bound.

use crate::command::Command;
use crate::random::Random;
use mpt_monitor::PageNumber;

/// How many pages are lent. Most sequences are small: what a call costs grows with the pages.
#[derive(Clone, Copy, Debug, PartialEq, Eq)]
pub enum Size {
    Small,
    /// Around 64 and 128.
    Middle,
    /// Up to 256.
    Large,
}

#[derive(Clone, Copy, Debug)]
pub struct Good {
    pub paw: u64,
    pub first: u64,
    pub pages: u64,
}

pub fn good(random: &mut Random, size: Size) -> Good {
    let paw = 30 + random.below(5);
    let pages = match size {
        Size::Small if random.percent(20) => 2 + random.below(2),
        Size::Small => 4 + random.below(14),
        Size::Middle => random.pick(&[63, 64, 65, 66, 66, 100, 127, 128, 128, 129, 130, 130]),
        Size::Large => random.pick(&[180, 191, 192, 193, 255, 256, 256, 256]),
    };
    let last = (1 << (paw - 12)) - pages;
    let first = match random.below(6) {
        0 => 1,
        1 => last,
        2 => random.pick(&[0x40000, 0x20000]).min(last),
        _ => 1 + random.below(last),
    };
    Good { paw, first, pages }
}

pub fn command(frame: Good) -> Command {
    let Good { paw, first, pages } = frame;
    Command::Frame { paw, first: PageNumber(first), pages: pages as usize, extra: 0 }
}

/// One thing wrong with a frame, mostly by one, or just not.
pub fn bad(random: &mut Random) -> Command {
    let Good { mut paw, mut first, pages } = good(random, Size::Small);
    let (mut pages, mut extra) = (pages as usize, 0);
    match random.below(10) {
        0 => paw = random.pick(&[0, 11, 12, 25, 63, 64, 76, 94, u64::MAX]),
        1 => paw = 29,
        2 => paw = 35,
        3 => pages = random.pick(&[0, 1, 257, 300]),
        4 => extra = random.pick(&[1, 511, 256]),
        5 => first = 0,
        6 => first = random.pick(&[u64::MAX, u64::MAX - 1, 1 << 22, 1 << 52]),
        7 => first = (1 << (paw - 12)) - pages as u64,
        _ => first = (1 << (paw - 12)) - pages as u64 + 1 + random.below(2),
    }
    // a bad PAW alone: the pages fit every width
    if paw == 29 || paw == 35 {
        first = 1 + random.below(1000);
    }
    Command::Frame { paw, first: PageNumber(first), pages, extra }
}
