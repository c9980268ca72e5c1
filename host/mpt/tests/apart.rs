//! `mpt apart` as a user has it, and `apart` in `mpt run`: what is said, and the exit status. Each answer follows from the
//! papers by hand.

use std::io::Write;
use std::process::{Command, Stdio};

fn mpt(words: &[&str], input: &str) -> (i32, String, String) {
    let mut child = Command::new(env!("CARGO_BIN_EXE_mpt"))
        .args(words)
        .stdin(Stdio::piped())
        .stdout(Stdio::piped())
        .stderr(Stdio::piped())
        .spawn()
        .unwrap();
    let _ = child.stdin.take().unwrap().write_all(input.as_bytes());
    let output = child.wait_with_output().unwrap();
    let text = |bytes| String::from_utf8(bytes).unwrap();
    (output.status.code().unwrap(), text(output.stdout), text(output.stderr))
}

const TWO: &str = "frame 32 0x80000 16\nopen 0 5\nopen 3 6\nedit 0 0x40000000 0x2000 rw 1536\n";

#[test]
fn a_script_may_ask() {
    let script = format!("{TWO}apart\nedit 3 0x40001000 0x1000 rx 1536\napart\napart strict\nslot 7 1\napart\n");
    for program in ["--second", "--plain", "--both", "--all"] {
        let (status, output, _) = mpt(&["run", program], &script);
        let last: Vec<&str> = output.lines().skip(4).collect();
        let wanted = [
            "apart",
            "edited 544 all fence domain 6",
            "shared 0x40001000 0 3",
            "shared 0x40001000 0 3",
            "ok",
            "refused 3",
        ];
        assert_eq!((status, last), (0, wanted.to_vec()), "{program}");
    }
    let (_, output, _) = mpt(&["run", "--both"], "frame 29 0x80000 16\napart strict\n");
    assert_eq!(output, "ok\nrefused 1\n");
}

#[test]
fn domains_that_are_kept_apart_are_success() {
    for words in [&["apart"][..], &["apart", "-", "--both"], &["apart", "--strict", "--all"]] {
        let (status, output, _) = mpt(words, TWO);
        assert!(status == 0 && output.starts_with("APART: ") && output.contains("alone on the board"), "{output}");
    }
}

#[test]
fn a_third_slot_that_may_write_is_told() {
    let given = "open 4 7\nedit 0 0x50000000 0x1000 rx 1536\nedit 3 0x50000000 0x1000 rx 1536\n";
    let (status, output, _) = mpt(&["apart", "--strict"], &format!("{TWO}{given}"));
    assert!(status == 3 && output.contains("Without --strict this is let through."), "{output}");
    let (status, output, _) = mpt(&["apart", "--strict"], &format!("{TWO}{given}edit 4 0x50000000 0x1000 rw 1536\n"));
    assert!(status == 3 && output.contains("open to slots 0 and 3, and neither may write it."), "{output}");
    assert!(output.contains("Slot 4 may write it, so that it is at fault without --strict too."), "{output}");
}

#[test]
fn a_shared_page_its_slots_and_what_to_do_are_told() {
    let (status, output, _) = mpt(&["apart"], &format!("{TWO}edit 3 0x40001000 0x1000 rx 1536\n"));
    assert_eq!(status, 3);
    let wanted = [
        "NOT APART: page 0x40001000 is open to slots 0 and 3, and one of them may write it.",
        "  slot 0, SDID 5: rw",
        "  slot 3, SDID 6: rx",
        "Slot 0 may change what the other reads there.",
        "To take the page from one of them: `edit 3 0x40001000 0x1000 none 1536`",
        "If none needs to write it: `edit 0 0x40001000 0x1000 rx 1536`",
        "This is the lowest page at fault. `mpt map` lists all that is shared.",
    ];
    assert_eq!(output.lines().collect::<Vec<_>>(), wanted);
    let advised = format!("{TWO}edit 3 0x40001000 0x1000 rx 1536\nedit 3 0x40001000 0x1000 none 1536\n");
    assert_eq!(mpt(&["apart", "--strict"], &advised).0, 0);
    let advised = format!("{TWO}edit 3 0x40001000 0x1000 rx 1536\nedit 0 0x40001000 0x1000 rx 1536\n");
    assert_eq!(mpt(&["apart"], &advised).0, 0);
    let (status, output, _) = mpt(&["apart", "--strict"], &advised);
    assert!(status == 3 && output.contains("and neither may write it"), "{output}");
    let (_, output, _) = mpt(&["apart"], &format!("{TWO}edit 3 0x40001000 0x1000 rw 1536\n"));
    assert!(
        output.contains("and both may write it.\n") && output.contains("Each may change what the other reads"),
        "{output}"
    );
    let both = "`edit 0 0x40001000 0x1000 rx 1536` and `edit 3 0x40001000 0x1000 rx 1536`";
    assert!(output.contains(both), "{output}");
}

#[test]
fn a_page_of_the_table_is_named_by_its_use() {
    // the entry of block 64 in slot 3's root, which is page 0x80001: rw over the lent pages
    let poked = format!("{TWO}poke 576 0x600000000002\n");
    let (status, output, _) = mpt(&["apart"], &poked);
    assert_eq!(status, 3);
    assert!(
        output.starts_with("NOT APART: page 0x80000000 is the root page of slot 0, and slot 3 may write it.\n"),
        "{output}"
    );
    assert!(output.contains("`edit 3 0x80000000 0x1000 none 1536`"), "{output}");
    assert!(output.ends_with("`mpt map` lists what of the table's memory is open.\n"), "{output}");
    // slot 0's L1 page is 0x80002: field 2 of an L1 page that slot 3 has for block 64, which is 0x80003
    let poked = format!("{TWO}poke 576 0x400000080003\npoke 1536 0x100\n");
    let (status, output, _) = mpt(&["apart", "--strict"], &poked);
    assert_eq!(status, 3);
    let told = "NOT APART: page 0x80002000 is an L1 page of the table (lent page 2), and slot 3 may read it.\n";
    assert!(output.starts_with(told), "{output}");
    assert_eq!(mpt(&["apart"], &poked).0, 0);
}

/// Slot 3's L1 page for block 64 is 0x80003, and the last lent page is open to it; then slot 0's is 0x80004, and so is that page.
#[test]
fn free_lent_pages_that_are_open_are_told() {
    let mut script = format!("{TWO}poke 576 0x400000080003\npoke 1536 0x2000000000000000\n");
    let free = "Free lent pages are open: the next open or edit may take them.";
    for words in [&["apart"][..], &["apart", "--strict", "--both"]] {
        let (status, output, _) = mpt(words, &script);
        assert!(status == 0 && output.lines().last() == Some(free), "{output}");
    }
    assert!(!mpt(&["apart"], TWO).1.contains(free));
    script.push_str("poke 64 0x400000080004\npoke 2048 0x2000000000000000\n");
    let (status, output, _) = mpt(&["apart"], &script);
    let wanted = [
        "NOT APART: page 0x8000f000 is open to slots 0 and 3, and both may write it.",
        "  slot 0, SDID 5: rw",
        "  slot 3, SDID 6: rw",
        "Each may change what the other reads there.",
        "To take the page from one of them: `edit 3 0x8000f000 0x1000 none 1536`",
        "No edit opens a lent page: words were written past the monitor, or by one that was lent other pages.",
        "This is the lowest page at fault. `mpt map` lists all that is shared.",
    ];
    assert_eq!((status, output.lines().collect::<Vec<_>>()), (3, wanted.to_vec()));
}

/// Two roots on two pages, and both have the same GiB: there is no page for an L1 page.
#[test]
fn an_edit_that_is_refused_is_not_advised() {
    let script = "frame 32 0x80000 2\nopen 0 5\nopen 3 6\nedit 0 0x40000000 0x40000000 rw 1536\nedit 3 0x40000000 0x40000000 rx 1536\n";
    let (status, output, _) = mpt(&["apart"], script);
    assert_eq!(status, 3);
    let refused = |end: &str, edit: &str| format!("{end}: not by `{edit}`, which is refused 7: ");
    let take = refused("To take the page from one of them", "edit 3 0x40000000 0x1000 none 1536");
    let read = refused("If none needs to write it", "edit 0 0x40000000 0x1000 rx 1536");
    assert!(output.contains(&take) && output.contains(&read), "{output}");
}

#[test]
fn what_is_not_the_bench_of_the_file_is_no_success() {
    let (status, output, _) = mpt(&["apart"], &format!("{TWO}edit 3 0x80000000 0x1000 rx 1536\n"));
    assert_eq!(status, 3);
    assert!(
        output.starts_with("APART: ") && output.contains("line 5, `edit 3 0x80000000 0x1000 rx 1536`: refused 6"),
        "{output}"
    );
    for (script, why) in [
        (format!("{TWO}poke 0 0x500000000000\n"), "refused 3"),
        ("frame 29 1 2\n".to_string(), "refused 1"),
        (format!("{TWO}opne 1\n"), "no answer, since 1 line could not be obeyed"),
        (String::new(), "make no frame"),
    ] {
        let (status, output, error) = mpt(&["apart"], &script);
        assert!(status == 2 && output.is_empty() && error.contains(why), "{script}: {output}{error}");
    }
    assert_eq!(mpt(&["apart", "--lax"], TWO).0, 2);
}
