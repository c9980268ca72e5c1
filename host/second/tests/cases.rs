//! The bench cases of document 01, and of items 3, 6 and 13 of document 02, asked of the second program. Every number of a case is the
//! paper's, or follows from its text by hand.

use second::*;

struct Bench {
    frame: Frame,
    words: Vec<u64>,
    slots: Slots,
}

/// "PAW 32, 16 pages from page 0x80000, slot 0 opened with SDID 5"
fn bench() -> Bench {
    bench_of(16)
}

fn bench_of(pages: usize) -> Bench {
    let frame = Frame { paw: 32, first: 0x80000 };
    let mut bench = Bench { frame, words: vec![0; pages * 512], slots: [0; 8] };
    let register = open(frame, &mut bench.words, &mut bench.slots, 0, 5);
    assert_eq!(register, Ok(0x1140_0000_0008_0000));
    bench
}

const NONE: Permission = 0;
const RX: Permission = 1;
const RW: Permission = 2;

impl Bench {
    fn edit(&mut self, permission: Permission, start: u64, length: u64, limit: u64) -> Result<Edited, u64> {
        let asked = Asked { slot: 0, start, length, permission };
        edit(self.frame, &mut self.words, &self.slots, asked, limit)
    }

    fn look(&self, original: Original, role: Role, address: u64) -> Looked {
        let access = Access { original, role };
        lookup(self.frame, &self.words, self.slots[0], Privilege::Supervisor, access, address)
    }

    fn load(&self, address: u64) -> Looked {
        self.look(Original::Load, Role::Itself, address)
    }

    fn free(&self) -> usize {
        let used = used_pages(self.frame, &self.words, &self.slots).expect("sound");
        free_pages(self.frame, &self.words, &used).len()
    }
}

fn all(stores: u64) -> Result<Edited, u64> {
    Ok(Edited { stores, all: true, fence: Fence::Domain(5) })
}

#[test]
fn case_a_new_domain_faults() {
    assert_eq!(bench().load(0x4000_0000), Looked::Fault(5));
}

#[test]
fn case_b_page_numbers_of_an_address() {
    let mut bench = bench();
    bench.edit(RW, 0x4012_3000, 0x1000, 1536).unwrap();
    assert_eq!(bench.words[32] >> 44, 4);
    assert_eq!(bench.words[512 + 18], 2 << (4 * 3));
    assert_eq!(bench.load(0x4012_3456), Looked::Allowed);
}

#[test]
fn case_c_one_page() {
    let mut bench = bench();
    assert_eq!(bench.edit(RW, 0x4000_0000, 0x1000, 1536), all(544));
    assert_eq!(bench.words[32], 0x0000_4000_0008_0001);
    assert!(bench.words[33..64].iter().all(|&entry| entry == 0x0000_6000_0000_0000));
    assert!(bench.words[..32].iter().chain(&bench.words[64..512]).all(|&entry| entry == 0));
}

#[test]
fn case_d_cut() {
    let mut bench = bench();
    let part = |stores| Ok(Edited { stores, all: false, fence: Fence::Domain(5) });
    assert_eq!(bench.edit(RW, 0x4000_0000, 0x1000, 512), part(512));
    assert_eq!(bench.load(0x4000_0000), Looked::Fault(5));
    assert_eq!(bench.edit(RW, 0x4000_0000, 0x1000, 513), part(513));
    assert_eq!(bench.load(0x4000_0000), Looked::Allowed);
    assert_eq!(bench.load(0x4000_1000), Looked::Fault(5));
    assert_eq!(bench.edit(RW, 0x4000_0000, 0x1000, 1536), all(31));
}

#[test]
fn case_e_accesses() {
    let mut bench = bench();
    bench.edit(RW, 0x4000_0000, 0x1000, 1536).unwrap();
    assert_eq!(bench.look(Original::Store, Role::Itself, 0x4000_0FFF), Looked::Allowed);
    assert_eq!(bench.look(Original::Fetch, Role::Itself, 0x4000_0FFF), Looked::Fault(1));
    assert_eq!(bench.look(Original::Store, Role::PageTableRead, 0x4000_1000), Looked::Fault(7));
}

#[test]
fn case_f_address_fence() {
    let mut bench = bench();
    bench.edit(RW, 0x4000_0000, 0x1000, 1536).unwrap();
    assert_eq!(bench.words[512], 0x2);
    let fence = Fence::Address { address: 0x4000_3000, sdid: 5 };
    let answer = bench.edit(RX, 0x4000_3000, 0x1000, 1536);
    assert_eq!(answer, Ok(Edited { stores: 1, all: true, fence }));
    assert_eq!(bench.words[512], 0x1002);
}

#[test]
fn cases_g_and_h_whole_gib_then_a_piece() {
    let mut bench = bench();
    bench.edit(RW, 0x4000_0000, 0x1000, 1536).unwrap();
    assert_eq!(bench.edit(RW, 0x4000_0000, 0x4000_0000, 1536), all(32));
    assert!(bench.words[32..64].iter().all(|&entry| entry == 0x0000_2000_0000_0000));
    assert_eq!(bench.free(), 15);
    assert_eq!(bench.edit(NONE, 0x4020_0000, 0x20_0000, 1536), all(32));
    assert_eq!(bench.words[32], 0x0000_6000_AAAA_AAA2);
}

#[test]
fn case_i_end_of_the_address_space() {
    let mut bench = bench();
    assert_eq!(bench.edit(RW, 0xFFFF_F000, 0x2000, 1536), Err(5));
    assert!(bench.edit(RW, 0xFFFF_F000, 0x1000, 1536).is_ok());
    assert_eq!(bench.load(0x1_0000_0000), Looked::Fault(5));
}

#[test]
fn case_j_lent_pages() {
    assert_eq!(bench().edit(RW, 0x8000_F000, 0x1000, 1536), Err(6));
    assert!(bench().edit(RW, 0x8001_0000, 0x1000, 1536).is_ok());
    let none = Edited { stores: 0, all: true, fence: Fence::None };
    assert_eq!(bench().edit(NONE, 0x8000_F000, 0x1000, 1536), Ok(none));
}

#[test]
fn case_k_freed_pages_are_free_for_the_next_call() {
    let mut bench = bench_of(2);
    assert!(bench.edit(RW, 0x4000_0000, 0x1000, 1536).is_ok());
    assert_eq!(bench.edit(RW, 0x4200_0000, 0x1000, 1536), Err(7));
    assert!(bench.edit(NONE, 0x4000_0000, 0x1000, 1536).is_ok());
    assert!(bench.edit(RW, 0x4200_0000, 0x1000, 1536).is_ok());
}

/// Document 02, item 3: "L1 entry 0x4000000000000002, load of its page 0, fault 5".
#[test]
fn case_v_a_reserved_bit_in_another_field() {
    let mut bench = bench();
    bench.words[32] = 0x0000_4000_0008_0001;
    bench.words[512] = 0x4000_0000_0000_0002;
    bench.words[513] = 0x0000_0000_0000_0002;
    bench.words[514] = 0x6000_0000_0000_0000;
    bench.words[515] = 0x2000_0000_0000_0004;
    assert_eq!(bench.load(0x4000_0000), Looked::Fault(5));
    assert_eq!(bench.load(0x4000_F000), Looked::Fault(5), "the field has the bit, and says none");
    assert_eq!(bench.load(0x4001_0000), Looked::Allowed, "this entry has none");
    assert_eq!(bench.load(0x4002_F000), Looked::Fault(5), "the field has the bit, and says rw");
    assert_eq!(bench.look(Original::Store, Role::Itself, 0x4003_F000), Looked::Fault(7), "field 0 has it");
    bench.words[512] = 0x1000_0000_0000_0002;
    assert_eq!(bench.load(0x4000_0000), Looked::Allowed);
}

/// One bit of an L1 entry at a time, of which the high two of each field are reserved.
#[test]
fn a_reserved_bit_anywhere_stops_every_page_of_its_entry() {
    let mut bench = bench();
    bench.words[32] = 0x0000_4000_0008_0001;
    for (bit, page) in (0..64).flat_map(|bit| (0..16).map(move |page| (bit, page))) {
        bench.words[512] = 0x2222_2222_2222_2222 | 1 << bit;
        let answer = if bit % 4 < 2 { Looked::Allowed } else { Looked::Fault(5) };
        assert_eq!(bench.load(0x4000_0000 + page * 4096), answer, "bit {bit}, page {page}");
    }
}

/// "New pages are the lowest pages free before the edit": a page that a cut edit unlinked is free
/// before its retry. So a retry may end in another page than the uncut edit, with as many free.
#[test]
fn a_retry_may_take_the_page_that_the_cut_edit_unlinked() {
    let edit = |bench: &mut Bench, limit| bench.edit(RW, 0x4000_0000, 0x400_1000, limit).unwrap();
    let mut uncut = bench();
    uncut.edit(RW, 0x4000_0000, 0x20_1000, 1536).unwrap();
    let mut cut = Bench { words: uncut.words.clone(), ..uncut };
    edit(&mut uncut, 1536);
    assert_eq!(uncut.words[32..35], [0x0000_6000_AAAA_AAAA, 0x0000_6000_AAAA_AAAA, 0x0000_4000_0008_0002]);
    edit(&mut cut, 1);
    edit(&mut cut, 1536);
    assert_eq!(cut.words[32..35], [0x0000_6000_AAAA_AAAA, 0x0000_6000_AAAA_AAAA, 0x0000_4000_0008_0001]);
    assert_eq!((cut.free(), uncut.free()), (14, 14));
}

#[test]
fn a_limit_of_zero_stores_nothing_and_asks_no_fence() {
    let mut bench = bench();
    let before = bench.words.clone();
    let answer = bench.edit(RW, 0x4000_0000, 0x1000, 0);
    assert_eq!(answer, Ok(Edited { stores: 0, all: false, fence: Fence::None }));
    assert_eq!(bench.words, before);
}

#[test]
fn refusals_keep_the_order_of_the_paper() {
    let frame = Frame { paw: 32, first: 0x80000 };
    let mut words = vec![0; 1024];
    let mut slots = [0; 8];
    // both roots taken: 8 comes before 7, and 4 before both
    assert!(open(frame, &mut words, &mut slots, 0, 0).is_ok());
    assert!(open(frame, &mut words, &mut slots, 1, 1).is_ok());
    assert_eq!(open(frame, &mut words, &mut slots, 1, 1), Err(4));
    assert_eq!(open(frame, &mut words, &mut slots, 2, 1), Err(8));
    assert_eq!(open(frame, &mut words, &mut slots, 2, 64), Err(8));
    assert_eq!(open(frame, &mut words, &mut slots, 2, 2), Err(7));
    assert_eq!(open(frame, &mut words, &mut slots, 8, 64), Err(4));
    assert_eq!(close(frame, &words, &mut slots, 2), Err(4));
    words[0] = 5 << 44;
    assert_eq!(close(frame, &words, &mut slots, 2), Err(3));
    assert_eq!(close(frame, &words[..1023], &mut slots, 2), Err(1));
    words[0] = 0;
    assert_eq!(close(frame, &words, &mut slots, 0), Ok(Fence::Domain(0)));
}

/// "An edit asking for rwx in slots 1 to 7 is refused with 10, tested after 5 and before 6. Slot 0 keeps it."
#[test]
fn case_w_no_write_and_execute_together() {
    let Bench { frame, mut words, mut slots } = bench();
    for slot in 1..8 {
        open(frame, &mut words, &mut slots, slot, 5 + slot).unwrap();
    }
    let mut ask = |slot, start, length, permission| {
        edit(frame, &mut words, &slots, Asked { slot, start, length, permission }, 1536).map(|edited| edited.stores)
    };
    for slot in 1..8 {
        assert_eq!(ask(slot, 0x4000_0000, 0x1000, 3), Err(10), "{slot}");
        assert_eq!(ask(slot, 0x8000_F000, 0x1000, 3), Err(10), "{slot}: 10 before 6");
        assert_eq!(ask(slot, 0x8000_F000, 0x0800, 3), Err(5), "{slot}: 5 before 10");
        assert_eq!(ask(slot, 0x8000_F000, 0x1000, 2), Err(6), "{slot}");
        assert_eq!(ask(slot, 0x4000_0000, 0x1000, NONE), Ok(0), "{slot}");
    }
    assert_eq!(ask(8, 0x4000_0000, 0x1000, 3), Err(4));
    assert_eq!(ask(0, 0x8000_F000, 0x1000, 3), Err(6));
    assert_eq!(ask(0, 0x4000_0000, 0x1000, 3), Ok(544));
    assert_eq!(ask(7, 0x4000_0000, 0x1000, RX), Ok(544));
    assert_eq!(ask(7, 0x4000_0000, 0x1000, RW), Ok(1));
}

/// "Pages already rwx stay so until edited."
#[test]
fn case_w_pages_that_are_rwx_already() {
    let Bench { frame, mut words, slots } = bench();
    let here = slots[0];
    let slots = [0, 0, 0, here, 0, 0, 0, 0];
    words[96] = 0x0000_3000_0000_0000;
    let ask = |words: &mut [u64], length, permission| {
        edit(frame, words, &slots, Asked { slot: 3, start: 0xC000_0000, length, permission }, 1536)
            .map(|edited| edited.stores)
    };
    assert_eq!(ask(&mut words, 0x1000, 3), Err(10));
    assert_eq!(ask(&mut words, 0x1000, RX), Ok(544));
    assert_eq!(words[96], 0x0000_4000_0008_0001);
    assert_eq!((words[512], words[513]), (0x3333_3333_3333_3331, 0x3333_3333_3333_3333));
    assert_eq!(ask(&mut words, 0x2000, 3), Err(10), "a page of the range is rwx already");
    assert_eq!(ask(&mut words, 0x4000_0000, RW), Ok(32));
}

#[test]
fn registers_and_frames_that_a_lookup_refuses() {
    let words = vec![0; 1024];
    let access = Access { original: Original::Load, role: Role::Itself };
    let look = |paw, first, mmpt, privilege| lookup(Frame { paw, first }, &words, mmpt, privilege, access, u64::MAX);
    let (m, s) = (Privilege::Machine, Privilege::Supervisor);
    assert_eq!(look(29, 1, 0, m), Looked::Refused(1));
    assert_eq!(look(35, 1, 0, m), Looked::Refused(1));
    assert_eq!(look(30, 0, 0, m), Looked::Refused(1));
    assert_eq!(look(30, (1 << 18) - 1, 0, m), Looked::Refused(1));
    assert_eq!(look(30, u64::MAX, 0, m), Looked::Refused(1));
    assert_eq!(look(30, (1 << 18) - 2, 0, m), Looked::Allowed);
    assert_eq!(look(30, 1, 1, m), Looked::Refused(2));
    assert_eq!(look(30, 1, 1 << 54, m), Looked::Refused(2));
    assert_eq!(look(30, 1, 2 << 60, m), Looked::Refused(2));
    assert_eq!(look(30, 1, 1 << 44, s), Looked::Allowed);
    assert_eq!(look(30, 1, 1 << 60, s), Looked::Fault(5));
}

/// Item 13: "no page open to two domains, no table page open to any". A second domain beside case C's: its root is page 0x80002.
#[test]
fn domains_kept_apart() {
    let mut bench = bench();
    bench.edit(RW, 0x4000_0000, 0x1000, 1536).unwrap();
    assert_eq!(open(bench.frame, &mut bench.words, &mut bench.slots, 3, 6), Ok(0x1180_0000_0008_0002));
    let apart = |bench: &Bench| {
        [Strength::Sharing, Strength::Strict].map(|strength| apart(bench.frame, &bench.words, &bench.slots, strength))
    };
    assert_eq!(apart(&bench), [Ok(Separation::Apart); 2]);
    // slot 3 has all of block 32, rx and then none
    bench.words[1024 + 32] = 1 << 44;
    assert_eq!(apart(&bench), [Ok(Separation::Shared { page: 0x40000, slots: [0, 3], written: true }); 2]);
    bench.words[512] = 0x1;
    let strict = Separation::Shared { page: 0x40000, slots: [0, 3], written: false };
    assert_eq!(apart(&bench), [Ok(Separation::Apart), Ok(strict)]);
    bench.words[1024 + 32] = 0;
    // page 0x80001 is case C's L1 page, and 0x80003 is free: both by an L1 page of slot 3, which is 0x80004
    bench.words[1024 + 64] = 4 << 44 | 0x80004;
    bench.words[4 * 512] = 0x2000;
    assert_eq!(apart(&bench), [Ok(Separation::Apart); 2]);
    bench.words[4 * 512] = 0x2010;
    let strict = Separation::Table { page: 0x80001, slot: 3, written: false };
    assert_eq!(apart(&bench), [Ok(Separation::Apart), Ok(strict)]);
    bench.words[4 * 512] = 0x0030;
    assert_eq!(apart(&bench), [Ok(Separation::Table { page: 0x80001, slot: 3, written: true }); 2]);
    bench.slots[5] = bench.slots[3];
    assert_eq!(apart(&bench), [Err(3); 2]);
    bench.frame.paw = 35;
    assert_eq!(apart(&bench), [Err(1); 2]);
}
