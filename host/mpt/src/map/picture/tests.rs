//! Pictures beside what lookups and the paper say.

use super::super::block::Shade;
use super::*;
use crate::command::parse;
use crate::programs::{all, SECOND};
use crate::random::Random;
use crate::sides::Sides;
use Permission::{None, Rw, Rwx, Rx};

/// The table that some lines leave.
fn table(lines: &[&str]) -> Table {
    let mut sides = Sides::new(&[SECOND]);
    for line in lines {
        sides.obey(&parse(line).unwrap().unwrap());
    }
    sides.table().unwrap().clone()
}

pub fn picture(lines: &[&str]) -> Picture {
    Picture::of(&table(lines), SECOND).unwrap()
}

const CASE_C: [&str; 3] = ["frame 32 0x80000 16", "open 0 5", "edit 0 0x40000000 0x1000 rw 1536"];

#[test]
fn case_c_in_blocks_ranges_and_pages() {
    let picture = picture(&CASE_C);
    let blocks = &picture.domains[0].blocks;
    assert_eq!(blocks.len(), 128);
    let closed = Shade { strongest: None, mixed: false };
    assert_eq!(blocks[31], Block { entry: Some(0), form: Form::Whole, shade: closed, pieces: [closed; 16] });
    let mixed = Shade { strongest: Rw, mixed: true };
    let mut pieces = [closed; 16];
    pieces[0] = mixed;
    let form = Form::Pages { page: 0x80001, reserved: false };
    assert_eq!(blocks[32], Block { entry: Some(0x0000_4000_0008_0001), form, shade: mixed, pieces });
    assert_eq!((blocks[33].form, blocks[33].entry), (Form::Pieces, Some(0x0000_6000_0000_0000)));
    assert_eq!(picture.domains[0].ranges, [Range { start: 0x4000_0000, end: 0x4000_1000, what: Rw }]);
    assert_eq!(picture.pages[..3], [Use::Root(0), Use::L1(0), Use::Free]);
    assert_eq!(picture.count(|each| *each == Use::Free), 14);
    assert!(picture.shared.is_empty() && picture.exposed.is_empty() && picture.is_fine());
}

#[test]
fn ranges_are_merged_over_blocks_and_forms() {
    let ranges = |lines: &[&str]| picture(&[&CASE_C[..2], lines].concat()).domains[0].ranges.clone();
    // a page before a GiB's end, and the whole next GiB
    let lines = ["edit 0 0x3ffff000 0x40001000 rx 1536"];
    assert_eq!(ranges(&lines), [Range { start: 0x3FFF_F000, end: 0x8000_0000, what: Rx }]);
    let lines = ["edit 0 0x1000 0x1fff000 rwx 1536", "edit 0 0x2000000 0x1000 rw 1536"];
    let wanted =
        [Range { start: 0x1000, end: 0x200_0000, what: Rwx }, Range { start: 0x200_0000, end: 0x200_1000, what: Rw }];
    assert_eq!(ranges(&lines), wanted);
}

#[test]
fn pages_of_two_domains_and_open_table_memory() {
    let mut lines = CASE_C.to_vec();
    lines.extend(["open 7 6", "edit 7 0x40000000 0x2000 rx 1536"]);
    let shared = picture(&lines);
    let mut both = Holders([None; 8]);
    (both.0[0], both.0[7]) = (Rw, Rx);
    assert_eq!(shared.shared, [Range { start: 0x4000_0000, end: 0x4000_1000, what: both }]);
    assert!(shared.is_fine(), "to share is no fault");
    // block 64 holds the lent pages 0x80000 to 0x8000f; its entry in slot 0's root says rx
    lines.push("poke 64 0x100000000000");
    let open = picture(&lines);
    let mut one = Holders([None; 8]);
    one.0[0] = Rx;
    assert_eq!(open.exposed, [Range { start: 0x8000_0000, end: 0x8001_0000, what: one }]);
    assert!(open.sound && !open.is_fine());
}

#[test]
fn damage_is_shown() {
    let mut lines = CASE_C.to_vec();
    lines.extend([
        "poke 0 0x500000000000",
        "poke 1 0x400000080001",
        "poke 512 0x8",
        "slot 3 0x1000000000000001",
        "slot 4 0x2000000000080002",
        "slot 5 0x100000000000",
    ]);
    let picture = picture(&lines);
    let forms = |nth: usize| picture.domains[nth].blocks[0].form;
    assert_eq!(forms(0), Form::Bad);
    assert_eq!(picture.domains[0].blocks[32].form, Form::Pages { page: 0x80001, reserved: true });
    assert_eq!(picture.pages[1], Use::Twice);
    assert_eq!(forms(1), Form::Bad, "the root is not lent");
    assert_eq!(forms(2), Form::Bad, "MODE 2");
    assert_eq!(forms(3), Form::Bare, "WPRI alone");
    assert_eq!(picture.domains[3].ranges, [Range { start: 0, end: 1 << 32, what: Rwx }]);
    assert!(!picture.sound && !picture.is_fine());
}

#[test]
fn a_reserved_bit_closes_the_pages_of_its_entry_and_no_other() {
    let whole = [&CASE_C[..2], &["edit 0 0x40000000 0x30000 rw 1536"]].concat();
    assert_eq!(picture(&whole).domains[0].ranges, [Range { start: 0x4000_0000, end: 0x4003_0000, what: Rw }]);
    let closed = picture(&[&whole[..], &["poke 513 0x2222222222226222"]].concat());
    let wanted = [(0x4000_0000, 0x4001_0000), (0x4002_0000, 0x4003_0000)];
    assert_eq!(closed.domains[0].ranges, wanted.map(|(start, end)| Range { start, end, what: Rw }));
}

#[test]
fn a_broken_frame_has_no_picture() {
    assert!(Picture::of(&table(&["frame 29 1 2"]), SECOND).unwrap_err().contains("PAW 29"));
}

/// A table with entries of every form, good ones and bad ones, whose domains share pages.
fn any_table(random: &mut Random) -> Table {
    let mut table = table(&["frame 30 0x1000 8", "open 0 1", "open 3 2", "open 6 3"]);
    for root in 0..3 {
        for block in 0..32 {
            let word = match random.below(7) {
                0 => random.below(8) << 44,
                1 | 2 => 6 << 44 | random.next() & 0xFFFF_FFFF,
                3 => 4 << 44 | (0x1003 + random.below(6)),
                4 => 1 << (47 + random.below(17)),
                _ => random.below(4) << 44,
            };
            table.words_mut()[root * PAGE_WORDS + block] = word;
        }
    }
    for word in &mut table.words_mut()[3 * PAGE_WORDS..] {
        let field = random.below(4);
        *word = match random.below(4) {
            0 => random.next() & 0x3333_3333_3333_3333,
            1 => field * 0x1111_1111_1111_1111,
            2 => 0,
            _ if random.percent(2) => random.next(),
            _ => 0x2222_2222_2222_2222,
        };
    }
    if random.percent(30) {
        table.slots_mut()[7] = random.pick(&[1 << 44, 5 << 60, 0x1000_0000_0000_0001, 0x1FC0_0000_0000_1003]);
    }
    table
}

/// For every page, what each domain may do by lookups of it alone, and what the picture says.
#[test]
fn ranges_and_shared_pages_are_those_of_lookups_page_by_page() {
    for (seed, program) in (1..).zip(all()) {
        let table = any_table(&mut Random::new(seed, 0));
        let picture = Picture::of(&table, program).unwrap();
        let mut each: Vec<Vec<Range<Permission>>> = Vec::new();
        for (domain, &word) in picture.domains.iter().zip(table.slots().iter().filter(|&&word| word != 0)) {
            let mut ranges = Vec::new();
            Lookups { program, table: &table, register: Register(word) }.each_page(0, 1 << 30, &mut ranges);
            ranges.retain(|range| range.what != None);
            assert_eq!(domain.ranges, ranges, "seed {seed}, {}, slot {}", program.name, domain.slot);
            each.push(ranges);
        }
        shared_by_pages(&picture, &each);
        let others: Vec<Picture> = all().into_iter().map(|other| Picture::of(&table, other).unwrap()).collect();
        assert!(others.iter().all(|other| *other == picture), "seed {seed}");
    }
}

/// Shared ranges again, the plain way: for each page, who has it.
fn shared_by_pages(picture: &Picture, each: &[Vec<Range<Permission>>]) {
    let mut pages = vec![Holders([None; 8]); 1 << 18];
    for (domain, ranges) in picture.domains.iter().zip(each) {
        for range in ranges {
            let pages = &mut pages[(range.start / 4096) as usize..(range.end / 4096) as usize];
            pages.iter_mut().for_each(|page| page.0[domain.slot] = range.what);
        }
    }
    let (mut shared, mut exposed) = (Vec::new(), Vec::new());
    for (nth, &what) in pages.iter().enumerate() {
        let range = Range { start: nth as u64 * 4096, end: (nth as u64 + 1) * 4096, what };
        if what.count() > 1 {
            push(&mut shared, range);
        }
        if what.count() > 0 && (0x1000..0x1008).contains(&nth) {
            push(&mut exposed, range);
        }
    }
    assert_eq!((&picture.shared, &picture.exposed), (&shared, &exposed));
}
