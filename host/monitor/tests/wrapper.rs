//! The wrapper reads each code and each word of an answer as mpt.h says, passes each argument in its
//! place, and writes the slots as mpt.h asks its callers to.

use mpt_monitor::*;
use std::cell::RefCell;

/// Answers what it is told to, and keeps what it was asked.
struct Canned {
    answer: Answer,
    asked: RefCell<Option<(Frame, usize, Call)>>,
}

impl Interface for Canned {
    fn read(&self, table: View<'_>, call: Reading) -> Answer {
        *self.asked.borrow_mut() = Some((table.frame, table.words.len(), Call::Reading(call)));
        self.answer
    }

    fn write(&self, table: ViewMut<'_>, call: Writing) -> Answer {
        *self.asked.borrow_mut() = Some((table.frame, table.words.len(), Call::Writing(call)));
        self.answer
    }
}

fn canned(answer: Answer) -> Canned {
    Canned { answer, asked: RefCell::default() }
}

const FRAME: Frame = Frame { paw: 31, first: PageNumber(9) };
const EDIT: Edit = Edit { slot: Slot(4), start: Address(5), length: 6, permission: Permission::Rwx, limit: 8 };

#[test]
fn arguments_keep_their_places() {
    let table = &mut Table::new(FRAME, 3);
    let mut asked = |answer, make: &dyn Fn(&Monitor<&Canned>, &mut Table)| {
        let program = canned(answer);
        make(&Monitor::over(&program), table);
        let asked = program.asked.take().unwrap();
        assert_eq!((asked.0, asked.1), (FRAME, 1536));
        asked.2
    };
    let lookup = asked(Answer::Looked(Verdict::Allowed), &|monitor, table| {
        let (kind, address) = (Kind::Update(Access::Load), Address(71));
        let looked = monitor.lookup(table, Register(70), Privilege::Machine, kind, address);
        assert_eq!(looked, Ok(Verdict::Allowed));
    });
    let wanted = Reading::Lookup { register: Register(70), privilege: 3, kind: 7, address: Address(71) };
    assert_eq!(lookup, Call::Reading(wanted));
    let open = asked(Answer::Opened(Register(0x77)), &|monitor, table| {
        assert_eq!(monitor.open(table, Slot(1), Sdid(73)), Ok(Register(0x77)));
    });
    assert_eq!(open, Call::Writing(Writing::Open { slot: Slot(1), sdid: Sdid(73) }));
    let close = asked(Answer::Closed(Fence::None), &|monitor, table| {
        assert_eq!(monitor.close(table, Slot(74)), Ok(Fence::None));
    });
    assert_eq!(close, Call::Reading(Reading::Close { slot: Slot(74) }));
    let edited = Edited { stores: 0, all: true, fence: Fence::None };
    let edit = asked(Answer::Edited(edited), &|monitor, table| assert_eq!(monitor.edit(table, EDIT), Ok(edited)));
    let wanted = Writing::Edit { slot: Slot(4), start: Address(5), length: 6, permission: 3, limit: 8 };
    assert_eq!(edit, Call::Writing(wanted));
    let sound = asked(Answer::Sound, &|monitor, table| assert_eq!(monitor.sound(table), Ok(())));
    assert_eq!(sound, Call::Reading(Reading::Sound));
    for (strength, code) in [(Strength::Sharing, 0), (Strength::Strict, 1)] {
        let apart = asked(Answer::Tested(Separation::Apart), &|monitor, table| {
            assert_eq!(monitor.apart(table, strength), Ok(Separation::Apart));
        });
        assert_eq!(apart, Call::Reading(Reading::Apart { strength: code }));
    }
}

/// By slot, a lookup is made under the register that stands there. A slot that is empty or above 7 has none, and is
/// refused where the frame is fine; anything else of MODE 0 is no register of a slot.
#[test]
fn a_lookup_by_slot_never_asks_under_bare() {
    let (wpri, open) = (Register(1 << 44), Register(0x1140_0000_0008_0000));
    let table = &Table::from_parts(FRAME, vec![0; 1536], [open.0, 0, wpri.0, 2 << 60, 0, 0, 0, 0]);
    let asked = |slot, answer| {
        let program = canned(answer);
        let kind = Kind::Itself(Access::Load);
        let looked = Monitor::over(&program).lookup_slot(table, Slot(slot), Privilege::User, kind, Address(71));
        match program.asked.take() {
            Some((_, _, Call::Reading(Reading::Lookup { register, privilege: 0, kind: 1, address: Address(71) }))) => {
                (register, looked)
            }
            other => panic!("asked {other:?}"),
        }
    };
    let (frame, register) = (Answer::Refused(Refusal::BadFrame), Answer::Refused(Refusal::BadRegister));
    for slot in [1, 4, 7, 8, 9, 1 << 32, u64::MAX] {
        assert_eq!(table.register(Slot(slot)), None);
        assert_eq!(asked(slot, register), (Register::NONE, Err(Refusal::BadSlot)));
        assert_eq!(asked(slot, frame), (Register::NONE, Err(Refusal::BadFrame)));
    }
    assert_eq!(asked(0, Answer::Looked(Verdict::Allowed)), (open, Ok(Verdict::Allowed)));
    assert_eq!(asked(0, Answer::fault(5)), (open, Ok(Verdict::Fault(Cause::Load))));
    assert_eq!(asked(2, register), (Register::NONE, Err(Refusal::BadRegister)));
    assert_eq!(asked(3, register), (Register(2 << 60), Err(Refusal::BadRegister)));
}

/// After an open the register stands in its slot, after a close zero, and a refusal changes none.
#[test]
fn slots_are_written_as_the_header_asks() {
    let (mut words, mut slots) = ([0; 1024], [1, 2, 3, 4, 5, 6, 7, 8]);
    let table = &mut Lent::new(FRAME, &mut words, &mut slots);
    let open = |answer| Monitor::over(canned(answer)).open(&mut *table, Slot(2), Sdid(0));
    let (register, refusal) = (Register(0x77), Refusal::BadSlot);
    let mut opening = open;
    assert_eq!(opening(Answer::Opened(register)), Ok(register));
    assert_eq!(opening(Answer::Refused(refusal)), Err(refusal));
    assert_eq!(table.register(Slot(2)), Some(register));
    let close = |table: &mut Lent, answer| Monitor::over(canned(answer)).close(table, Slot(7));
    assert_eq!(close(table, Answer::Refused(refusal)), Err(refusal));
    assert_eq!(table.view().slots, &[1, 2, 0x77, 4, 5, 6, 7, 8]);
    assert_eq!(close(table, Answer::Closed(Fence::Domain(Sdid(0)))), Ok(Fence::Domain(Sdid(0))));
    assert_eq!(slots, [1, 2, 0x77, 4, 5, 6, 7, 0]);
}

#[test]
fn words_are_read_as_the_header_says() {
    let edited = |stores, all, fence| Answer::Edited(Edited { stores, all, fence });
    let start = Address(0x4000_3000);
    assert_eq!(word::edited(0x880_5700, start), edited(544, true, Fence::Domain(Sdid(5))));
    assert_eq!(word::edited(0x4_0900, start), edited(1, false, Fence::Address(start, Sdid(0))));
    assert_eq!(word::edited(0x300, start), edited(0, true, Fence::None));
    assert_eq!(word::edited(0x6_00FF_F500, start), edited(0x1803F, false, Fence::Domain(Sdid(63))));
    assert_eq!(word::edited(0xD00, start), Answer::Unknown(0xD00));
    assert_eq!(word::closed(0x5500), Answer::Closed(Fence::Domain(Sdid(5))));
    assert_eq!(word::opened(0x1140_0000_0008_0000), Answer::Opened(Register(0x1140_0000_0008_0000)));
    assert_eq!(word::looked(0), Answer::Looked(Verdict::Allowed));
    for (word, cause) in [(257, Cause::Fetch), (261, Cause::Load), (263, Cause::Store)] {
        assert_eq!(word::looked(word), Answer::Looked(Verdict::Fault(cause)));
    }
    assert_eq!(word::sound(0), Answer::Sound);
}

#[test]
fn the_word_of_a_separation_is_read_as_the_header_says() {
    let table = |page, slot, written| {
        Answer::Tested(Separation::TableOpen { page: PageNumber(page), slot: Slot(slot), written })
    };
    let shared = |page, slot, other, written| {
        let (page, slot, other) = (PageNumber(page), Slot(slot), Slot(other));
        Answer::Tested(Separation::PageShared { page, slot, other, written })
    };
    assert_eq!(word::tested(0), Answer::Tested(Separation::Apart));
    // 256 + 512, and 1,024 if it may be written; slot 7 is 0x7000, slot 6 beside it 0x6000 and 0x70000; a page is 0x100000
    assert_eq!(word::tested(0x300), table(0, 0, false));
    assert_eq!(word::tested(0x3F_FFF0_7700), table(0x3_FFFF, 7, true));
    assert_eq!(word::tested(0x8_0017_6100), shared(0x8001, 6, 7, false));
    assert_eq!(word::tested(0x3FF_FFF1_0500), shared(0x3F_FFFF, 0, 1, true));
    // no other slot of a table page; two slots in order; bits that mean nothing
    for word in [0x1_0300, 0x100, 0x1_1100, 0x1_2100, 0x301, 0xB00, 0x8300, 0x8_0300, 0x1_0000] {
        assert_eq!(word::tested(word), Answer::Unknown(word));
    }
}

#[test]
fn what_no_call_has_done_is_read_alike_by_all() {
    let edit = |word| word::edited(word, Address(0));
    for read in [word::looked, word::opened, word::closed, word::sound, word::tested, edit] {
        for (word, refusal) in [1, 2, 3, 4, 5, 6, 7, 8, 10].into_iter().zip(Refusal::ALL) {
            assert_eq!(read(word), Answer::Refused(refusal));
            assert_eq!(refusal.number(), word);
        }
        assert_eq!(read(255), Answer::OutsideKind);
        assert_eq!(read(9), Answer::Unknown(9));
    }
    for read in [word::opened, word::closed, edit] {
        assert_eq!(read(0), Answer::Unknown(0));
    }
    assert_eq!((word::looked(256), word::looked(264)), (Answer::Unknown(0), Answer::Unknown(8)));
    assert_eq!(word::sound(256), Answer::Unknown(256));
}

#[test]
#[should_panic(expected = "answered OutsideKind")]
fn a_code_that_no_call_here_can_have_is_no_answer() {
    let _ = Monitor::over(canned(Answer::OutsideKind)).edit(&mut Table::new(FRAME, 3), EDIT);
}

#[test]
fn codes_of_kinds_follow_the_header() {
    let codes: Vec<u64> = Kind::all().map(Kind::code).collect();
    assert_eq!(codes, [0, 1, 2, 3, 4, 5, 6, 7, 8]);
    assert_eq!(Kind::PageTableRead(Access::Store).code(), 5);
    assert_eq!(Permission::ALL.map(Permission::code), [0, 1, 2, 3]);
    assert_eq!(Permission::Rx.name(), "rx");
    assert_eq!(Strength::ALL.map(Strength::code), [0, 1]);
}

/// The library is of the version that this crate is written for, and that is the header's.
#[cfg(feature = "proved")]
#[test]
fn the_version_is_the_headers() {
    let header = include_str!("../../include/mpt.h");
    let number = |name: &str| -> u64 {
        let line = header.lines().find_map(|line| line.strip_prefix(name)).unwrap();
        line.trim().parse().unwrap()
    };
    let version = number("#define MPT_VERSION_MAJOR ") << 16 | number("#define MPT_VERSION_MINOR ");
    assert_eq!(VERSION, version);
    assert_eq!(Proved.version(), VERSION);
}

/// The constants that the header names too.
#[test]
fn limits_are_the_headers() {
    let header = include_str!("../../include/mpt.h");
    for (name, value) in [("MPT_MOST_STORES", MOST_STORES), ("MPT_LEAST_LIMIT", LEAST_LIMIT)] {
        assert!(header.contains(&format!("    {name} = {value}")), "{name}");
    }
    assert!(header.contains("#define MPT_NO_REGISTER MPT_VALUE(mpt_register, UINT64_C(15) << 60)"));
    assert_eq!(Register::NONE.mode(), 15);
}

/// Case C and E of document 01 through the proved library.
#[cfg(feature = "proved")]
#[test]
fn the_proved_library_answers() {
    let monitor = Monitor::proved();
    let mut table = Table::new(Frame { paw: 32, first: PageNumber(0x80000) }, 16);
    assert_eq!(monitor.open(&mut table, Slot(0), Sdid(5)), Ok(Register(0x1140_0000_0008_0000)));
    let edit =
        Edit { slot: Slot(0), start: Address(0x4000_0000), length: 0x1000, permission: Permission::Rw, limit: 1536 };
    let edited = Edited { stores: 544, all: true, fence: Fence::Domain(Sdid(5)) };
    assert_eq!(monitor.edit(&mut table, edit), Ok(edited));
    assert_eq!(table.words()[32], 0x0000_4000_0008_0001);
    let look = |kind, at| monitor.lookup_slot(&table, Slot(0), Privilege::Supervisor, kind, Address(at));
    assert_eq!(look(Kind::Itself(Access::Store), 0x4000_0FFF), Ok(Verdict::Allowed));
    assert_eq!(look(Kind::PageTableRead(Access::Store), 0x4000_1000), Ok(Verdict::Fault(Cause::Store)));
    for (slot, privilege) in [1, 8, u64::MAX].into_iter().flat_map(|slot| Privilege::ALL.map(|each| (slot, each))) {
        let looked = Kind::all().map(|kind| monitor.lookup_slot(&table, Slot(slot), privilege, kind, Address(0)));
        assert!(looked.eq([Err(Refusal::BadSlot); 9]), "{slot} {privilege:?}");
    }
    assert_eq!(monitor.sound(&table), Ok(()));
    assert_eq!(monitor.close(&mut table, Slot(0)), Ok(Fence::Domain(Sdid(5))));
    assert_eq!(table.slots(), &[0; SLOTS]);
}

/// A page that two slots share, and then a table page, through the proved library.
#[cfg(feature = "proved")]
#[test]
fn the_proved_library_tests_whether_domains_are_kept_apart() {
    let monitor = Monitor::proved();
    let mut table = Table::new(Frame { paw: 32, first: PageNumber(0x80000) }, 16);
    for (slot, sdid) in [(2, 5), (6, 0)] {
        monitor.open(&mut table, Slot(slot), Sdid(sdid)).unwrap();
    }
    let both = |table: &Table| Strength::ALL.map(|strength| monitor.apart(table, strength));
    let shared =
        |written| Ok(Separation::PageShared { page: PageNumber(0x40000), slot: Slot(2), other: Slot(6), written });
    let table_open = |written| Ok(Separation::TableOpen { page: PageNumber(0x80000), slot: Slot(6), written });
    assert_eq!(both(&table), [Ok(Separation::Apart); 2]);
    // entry 32 of the roots, which are the first two pages: the block of 0x40000000
    (table.words_mut()[32], table.words_mut()[512 + 32]) = (1 << 44, 2 << 44);
    assert_eq!(both(&table), [shared(true); 2]);
    table.words_mut()[512 + 32] = 1 << 44;
    assert_eq!(both(&table), [Ok(Separation::Apart), shared(false)]);
    // entry 64: the block of the lent pages
    (table.words_mut()[32], table.words_mut()[512 + 64]) = (0, 1 << 44);
    assert_eq!(both(&table), [Ok(Separation::Apart), table_open(false)]);
    table.words_mut()[512 + 64] = 3 << 44;
    assert_eq!(both(&table), [table_open(true); 2]);
    table.words_mut()[0] = 5 << 44;
    assert_eq!(both(&table), [Err(Refusal::NotSound); 2]);
}

/// With the least limit an edit that is made again and again ends, within five calls. With one store less, an edit with
/// a new page does not.
#[cfg(feature = "proved")]
#[test]
fn an_edit_in_parts_ends() {
    let monitor = Monitor::proved();
    // how many calls, up to ten, and whether the edit was all by then
    let calls = |table: &mut Table, edit| {
        for calls in 1..=10 {
            match monitor.edit(table, edit) {
                Ok(edited) if edited.all => return Ok((calls, true)),
                Ok(_) => {}
                Err(refusal) => return Err((calls, refusal)),
            }
        }
        Ok((10, false))
    };
    let mut seed: u64 = 88_172_645_463_325_252;
    let mut below = |bound: u64| {
        seed ^= seed << 13;
        seed ^= seed >> 7;
        seed ^= seed << 17;
        seed % bound
    };
    let mut cut = 0;
    for _ in 0..100 {
        let (paw, pages) = (30 + below(5), 3 + below(30) as usize);
        let words = (0..pages * PAGE_WORDS).map(|_| below(u64::MAX)).collect();
        let table = &mut Table::from_parts(Frame { paw, first: PageNumber(0x1000) }, words, [0; SLOTS]);
        monitor.open(table, Slot(0), Sdid(5)).unwrap();
        for _ in 0..20 {
            let (top, size) = (1 << (paw - 12), [1, 512, 8192, 1 << 18][below(4) as usize]);
            let start = below(top);
            let length = ((1 + below(3)) * size).min(top - start) << 12;
            let permission = Permission::ALL[below(4) as usize];
            let edit = Edit { slot: Slot(0), start: Address(start << 12), length, permission, limit: LEAST_LIMIT };
            match calls(table, edit) {
                Ok((calls, all)) => {
                    assert!(all && calls <= 5, "{edit:?}");
                    cut += u64::from(calls > 1);
                }
                Err((calls, _)) => assert_eq!(calls, 1, "{edit:?}"),
            }
        }
    }
    assert!(cut > 100, "{cut} were cut");
    let table = &mut Table::new(Frame { paw: 32, first: PageNumber(0x80000) }, 16);
    monitor.open(table, Slot(0), Sdid(5)).unwrap();
    let (start, limit) = (Address(0x4000_0000), LEAST_LIMIT - 1);
    let edit = Edit { slot: Slot(0), start, length: 0x1000, permission: Permission::Rw, limit };
    assert_eq!(calls(table, edit), Ok((10, false)));
}
