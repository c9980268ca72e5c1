//! Bench cases of document 01, and of items 3, 6 and 13 of document 02, by the codes of the C interface, and the edges of the codes.

use plain::{Asked, Edited, Fence, Frame, Looked, Separation};

const FRAME: Frame = Frame { paw: 32, first: 0x80000 };
const NONE: u64 = 0;
const RX: u64 = 1;
const RW: u64 = 2;
const RWX: u64 = 3;
const FETCH: u64 = 0;
const LOAD: u64 = 1;
const STORE: u64 = 2;
const WALK_FOR_STORE: u64 = 5;

type State = (Vec<u64>, [u64; 8]);

fn opened(pages: usize) -> State {
    let (mut words, mut slots) = (vec![0; pages * 512], [0; 8]);
    slots[0] = plain::open(FRAME, &mut words, &slots, 0, 5).unwrap();
    assert_eq!(slots[0], 0x1140_0000_0008_0000);
    (words, slots)
}

fn edit(state: &mut State, start: u64, length: u64, permission: u64, limit: u64) -> Result<Edited, u64> {
    plain::edit(FRAME, &mut state.0, &state.1, Asked { slot: 0, start, length, permission, limit })
}

fn look(state: &State, kind: u64, address: u64) -> Looked {
    plain::lookup(FRAME, &state.0, state.1[0], 1, kind, address)
}

fn part(stores: u64) -> Result<Edited, u64> {
    Ok(Edited { stores, all: false, fence: Fence::Domain { sdid: 5 } })
}

fn all(stores: u64) -> Result<Edited, u64> {
    Ok(Edited { stores, all: true, fence: Fence::Domain { sdid: 5 } })
}

#[test]
fn cases_a_to_h() {
    let mut state = opened(16);
    assert_eq!(look(&state, LOAD, 0x4000_0000), Looked::Fault(5));
    assert_eq!(edit(&mut state, 0x4000_0000, 0x1000, RW, 512), part(512));
    assert_eq!(look(&state, LOAD, 0x4000_0000), Looked::Fault(5));
    assert_eq!(edit(&mut state, 0x4000_0000, 0x1000, RW, 513), part(513));
    assert_eq!(look(&state, LOAD, 0x4000_0000), Looked::Allowed);
    assert_eq!(look(&state, LOAD, 0x4000_1000), Looked::Fault(5));
    assert_eq!(edit(&mut state, 0x4000_0000, 0x1000, RW, 1536), all(31));
    let mut uncut = opened(16);
    assert_eq!(edit(&mut uncut, 0x4000_0000, 0x1000, RW, 1536), all(544));
    assert_eq!(uncut, state);
    assert_eq!(state.0[32], 0x0000_4000_0008_0001);
    assert_eq!(state.0[33..64], [0x0000_6000_0000_0000; 31]);
    assert_eq!(look(&state, STORE, 0x4000_0FFF), Looked::Allowed);
    assert_eq!(look(&state, FETCH, 0x4000_0FFF), Looked::Fault(1));
    assert_eq!(look(&state, WALK_FOR_STORE, 0x4000_1000), Looked::Fault(7));
    let fence = Fence::Address { address: 0x4000_3000, sdid: 5 };
    assert_eq!(edit(&mut uncut, 0x4000_3000, 0x1000, RX, 1536), Ok(Edited { stores: 1, all: true, fence }));
    assert_eq!(uncut.0[512], 0x1002);
    assert_eq!(edit(&mut state, 0x4000_0000, 0x4000_0000, RW, 1536), all(32));
    assert_eq!(state.0[32..64], [0x0000_2000_0000_0000; 32]);
    assert_eq!(edit(&mut state, 0x4020_0000, 0x20_0000, NONE, 1536), all(32));
    assert_eq!(state.0[32], 0x0000_6000_AAAA_AAA2);
    assert_eq!(plain::close(FRAME, &state.0, &state.1, 0), Ok(Fence::Domain { sdid: 5 }));
}

#[test]
fn cases_i_j_and_k() {
    let mut state = opened(16);
    assert_eq!(edit(&mut state, 0xFFFF_F000, 0x2000, RW, 1536), Err(5));
    assert_eq!(edit(&mut state, 0xFFFF_F000, 0x1000, RW, 1536), all(544));
    assert_eq!(look(&state, LOAD, 0x1_0000_0000), Looked::Fault(5));
    assert_eq!(edit(&mut opened(16), 0x8000_F000, 0x1000, RW, 1536), Err(6));
    assert_eq!(edit(&mut opened(16), 0x8001_0000, 0x1000, RW, 1536), all(544));
    let none = Edited { stores: 0, all: true, fence: Fence::None };
    assert_eq!(edit(&mut opened(16), 0x8000_F000, 0x1000, NONE, 1536), Ok(none));
    let mut state = opened(2);
    assert_eq!(edit(&mut state, 0x4000_0000, 0x1000, RW, 1536), all(544));
    assert_eq!(edit(&mut state, 0x4200_0000, 0x1000, RW, 1536), Err(7));
    assert_eq!(edit(&mut state, 0x4000_0000, 0x1000, NONE, 1536), all(32));
    assert_eq!(edit(&mut state, 0x4200_0000, 0x1000, RW, 1536), all(544));
}

#[test]
fn case_v() {
    let mut state = opened(16);
    state.0[32] = 0x0000_4000_0008_0001;
    state.0[512] = 0x4000_0000_0000_0002;
    state.0[513] = 0x0000_0000_0000_0002;
    state.0[514] = 0x6000_0000_0000_0000;
    state.0[515] = 0x2000_0000_0000_0004;
    assert_eq!(look(&state, LOAD, 0x4000_0000), Looked::Fault(5));
    assert_eq!(look(&state, LOAD, 0x4000_F000), Looked::Fault(5));
    assert_eq!(look(&state, LOAD, 0x4001_0000), Looked::Allowed);
    assert_eq!(look(&state, LOAD, 0x4002_F000), Looked::Fault(5));
    assert_eq!(look(&state, STORE, 0x4003_F000), Looked::Fault(7));
}

/// No rwx but in slot 0: one domain, which stands in the slot that is asked and in no other.
#[test]
fn case_w() {
    let mut state = opened(16);
    let mut ask = |slot: usize, start, length, permission| {
        let mut slots = [0; 8];
        slots[slot] = state.1[0];
        let asked = Asked { slot: slot as u64, start, length, permission, limit: 1536 };
        plain::edit(FRAME, &mut state.0, &slots, asked).map(|edited| edited.stores)
    };
    for slot in 1..8 {
        assert_eq!(ask(slot, 0x4000_0000, 0x1000, RWX), Err(10), "{slot}");
        assert_eq!(ask(slot, 0x8000_F000, 0x1000, RWX), Err(10), "{slot}: 10 before 6");
        assert_eq!(ask(slot, 0x8000_F000, 0x0800, RWX), Err(5), "{slot}: 5 before 10");
    }
    assert_eq!(ask(1, 0x4000_0000, 0x1000, NONE), Ok(0));
    assert_eq!(ask(1, 0x4000_0000, 0x1000, RX), Ok(544));
    assert_eq!(ask(1, 0x4000_0000, 0x1000, RW), Ok(1));
    assert_eq!(ask(0, 0x8000_F000, 0x1000, RWX), Err(6));
    assert_eq!(ask(0, 0x4000_0000, 0x1000, RWX), Ok(1));
    assert_eq!(ask(1, 0x4000_0000, 0x1000, RWX), Err(10), "it is rwx already");
    assert_eq!(ask(1, 0x4000_1000, 0x1000, RW), Ok(1));
    assert_eq!(state.0[512], 0x23);
}

#[test]
fn arguments_outside_their_kind() {
    let (mut words, slots) = opened(2);
    let look = |privilege, kind| plain::lookup(FRAME, &words, 0, privilege, kind, 0);
    assert_eq!(look(2, LOAD), Looked::Refused(255));
    assert_eq!(look(4, LOAD), Looked::Refused(255));
    assert_eq!(look(1, 9), Looked::Refused(255));
    let asked = Asked { slot: 0, start: 0, length: 4096, permission: 4, limit: 0 };
    assert_eq!(plain::edit(FRAME, &mut words, &slots, asked), Err(255));
    assert_eq!((words, slots), opened(2));
}

#[test]
fn both_checks_see_each_kind_of_damage() {
    let (mut words, slots) = opened(3);
    let both = |words: &[u64], slots: &[u64; 8]| {
        let tuned = plain::sound(FRAME, words, slots);
        assert_eq!(tuned, plain::sound_obvious(FRAME, words, slots));
        tuned
    };
    let first = FRAME.first;
    assert_eq!(both(&words, &slots), Ok(()));
    assert_eq!(both(&words[1..], &slots), Err(1));
    for entry in [1, 1 << 47, 5 << 44, 7 << 44, 6 << 44 | 1 << 32, 4 << 44 | first, 4 << 44 | (first + 3)] {
        words[127] = entry;
        assert_eq!(both(&words, &slots), Err(3), "{entry:#x}");
        words[127] = 0;
        words[128] = entry;
        assert_eq!(both(&words, &slots), Ok(()), "entry 128 is never read at PAW 32");
        words[128] = 0;
    }
    words[3] = 4 << 44 | (first + 1);
    assert_eq!(both(&words, &slots), Ok(()));
    words[1023] = 1 << 63;
    assert_eq!(both(&words, &slots), Err(3));
    words[1023] = 0;
    words[4] = words[3];
    assert_eq!(both(&words, &slots), Err(3));
}

/// Item 13 of document 02, of two domains by their roots: words 0 to 511 and 512 to 1,023. Entry 32 is the block of 0x40000000,
/// entry 64 that of the lent pages.
#[test]
fn domains_kept_apart() {
    let (mut words, slots) = (vec![0; 4 * 512], [0, 0x1140_0000_0008_0000, 0, 0, 0, 0, 0x1180_0000_0008_0001, 0]);
    let apart = |words: &[u64], strength| plain::apart(FRAME, words, &slots, strength);
    let both = |words: &[u64]| [apart(words, 0), apart(words, 1)];
    let shared = |page, written| Ok(Separation::PageShared { page, slot: 1, other: 6, written });
    let table = |page, slot, written| Ok(Separation::TableOpen { page, slot, written });
    assert_eq!(both(&words), [Ok(Separation::Apart); 2]);
    words[32] = RW << 44;
    assert_eq!(both(&words), [Ok(Separation::Apart); 2]);
    // the last piece of the block, rx
    words[512 + 32] = 6 << 44 | RX << 30;
    assert_eq!(both(&words), [shared(0x41E00, true); 2]);
    words[32] = RX << 44;
    assert_eq!(both(&words), [Ok(Separation::Apart), shared(0x41E00, false)]);
    // the last page of that piece by the L1 page 0x80002, rwx
    (words[32], words[1024 + 511]) = (4 << 44 | 0x80002, RWX << 60);
    assert_eq!(both(&words), [shared(0x41FFF, true); 2]);
    // the roots rx to slot 6: let through by the weaker test
    (words[32], words[512 + 64]) = (0, 6 << 44 | RX);
    assert_eq!(both(&words), [Ok(Separation::Apart), table(0x80000, 6, false)]);
    words[512 + 64] = 6 << 44 | RW;
    assert_eq!(both(&words), [table(0x80000, 6, true); 2]);
    assert_eq!(apart(&words, 2), Err(255));
    assert_eq!(plain::apart(Frame { paw: 29, ..FRAME }, &words, &slots, 2), Err(255));
    assert_eq!(plain::apart(Frame { paw: 29, ..FRAME }, &words, &slots, 1), Err(1));
    words[0] = 5 << 44;
    assert_eq!(both(&words), [Err(3); 2]);
}
