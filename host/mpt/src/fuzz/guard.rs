//! Memory for a library to work on, with pages on both sides that may not be touched: a read or a
//! write outside it ends the program.

use std::cell::Cell;
use std::os::raw::{c_int, c_void};
use std::ptr;

mod c {
    use std::os::raw::{c_int, c_void};

    extern "C" {
        pub fn mmap(at: *mut c_void, length: usize, may: c_int, flags: c_int, file: c_int, from: i64) -> *mut c_void;
        pub fn mprotect(at: *mut c_void, length: usize, may: c_int) -> c_int;
        pub fn signal(number: c_int, handler: usize) -> usize;
        pub fn _exit(status: c_int) -> !;
        pub fn write(file: c_int, bytes: *const c_void, count: usize) -> isize;
    }
}

const PAGE: usize = 4096;
const PRIVATE_ANONYMOUS: c_int = 0x22;
const READ: c_int = 1;
const READ_WRITE: c_int = 3;

/// Room for up to `most` words, which are used from its beginning or up to its end.
pub struct Guarded {
    room: *mut u64,
    most: usize,
}

impl Guarded {
    pub fn new(most: usize) -> Guarded {
        let most = (most * 8 + PAGE - 1) / PAGE * PAGE / 8;
        // SAFETY: a new mapping; the pages before and after the room stay closed.
        unsafe {
            let all = c::mmap(ptr::null_mut(), most * 8 + 2 * PAGE, 0, PRIVATE_ANONYMOUS, -1, 0);
            assert!(all as isize != -1, "no memory");
            let guarded = Guarded { room: all.cast::<u8>().add(PAGE).cast(), most };
            guarded.may(READ_WRITE);
            guarded
        }
    }

    fn may(&self, what: c_int) {
        // SAFETY: the room alone, which is mapped as long as the program runs.
        assert_eq!(unsafe { c::mprotect(self.room.cast(), self.most * 8, what) }, 0);
    }

    /// So many words, next to the closed page above them (`high`) or below them.
    pub fn words(&mut self, count: usize, high: bool) -> &mut [u64] {
        assert!(count <= self.most);
        let from = if high { self.most - count } else { 0 };
        // SAFETY: inside the room; the borrow keeps it from being lent twice.
        unsafe { std::slice::from_raw_parts_mut(self.room.add(from), count) }
    }

    /// The same words, where no byte of them can be written until the work is done.
    pub fn read_only<T>(&mut self, count: usize, high: bool, work: impl FnOnce(&[u64]) -> T) -> T {
        self.may(READ);
        let done = work(self.words(count, high));
        self.may(READ_WRITE);
        done
    }
}

thread_local! {
    /// What a thread that ends the program by a signal says first. It is plain memory of the thread, so
    /// that a signal's handler may read it.
    static LAST_WORDS: Cell<([u8; 96], usize)> = const { Cell::new(([0; 96], 0)) };
}

/// From now on, a crash of this thread writes this line.
pub fn last_words(line: &str) {
    let mut bytes = [0; 96];
    let count = line.len().min(96);
    bytes[..count].copy_from_slice(&line.as_bytes()[..count]);
    LAST_WORDS.with(|words| words.set((bytes, count)));
}

extern "C" fn crashed(_: c_int) {
    let (bytes, count) = LAST_WORDS.with(Cell::get);
    // SAFETY: both calls are allowed in a signal handler, which runs in the thread that crashed.
    unsafe {
        c::write(1, bytes.as_ptr().cast::<c_void>(), count);
        c::_exit(1)
    }
}

/// Lets the signals of a crash (SIGILL, SIGABRT, SIGBUS, SIGFPE, SIGSEGV) write the last words.
pub fn catch_crashes() {
    for number in [4, 6, 7, 8, 11] {
        // SAFETY: the handler only writes and leaves.
        unsafe { c::signal(number, crashed as *const () as usize) };
    }
}

#[cfg(test)]
mod tests {
    use super::*;

    #[test]
    fn the_words_lie_against_a_closed_page() {
        let mut guarded = Guarded::new(600);
        let high = guarded.words(5, true).as_ptr_range().end as usize;
        let low = guarded.words(5, false).as_ptr() as usize;
        assert_eq!((high % PAGE, low % PAGE, high - low), (0, 0, 2 * PAGE));
        guarded.words(5, true).fill(7);
        assert_eq!(guarded.read_only(5, true, |words| words.iter().sum::<u64>()), 35);
        guarded.words(5, true).fill(8);
    }
}
