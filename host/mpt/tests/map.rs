//! `mpt map` as a user has it: what it says of a script, on the terminal, in the SVG and in the HTML.

use std::fs;
use std::path::PathBuf;
use std::process::{Command, Output};

fn mpt(words: &[&str]) -> Output {
    Command::new(env!("CARGO_BIN_EXE_mpt")).args(words).output().unwrap()
}

fn text(bytes: &[u8]) -> String {
    String::from_utf8(bytes.to_vec()).unwrap()
}

/// A file of its own for a test.
fn file(name: &str) -> String {
    PathBuf::from(env!("CARGO_TARGET_TMPDIR")).join(name).to_str().unwrap().to_string()
}

fn example(name: &str) -> String {
    format!("{}/../../examples/{name}", env!("CARGO_MANIFEST_DIR"))
}

/// A script's status, and the picture on the terminal, in SVG and in HTML.
fn drawn(name: &str, script: &str) -> (i32, [String; 3]) {
    let [script_file, svg, html] = ["mpt", "svg", "html"].map(|kind| file(&format!("{name}.{kind}")));
    fs::write(&script_file, script).unwrap();
    let output = mpt(&["map", &script_file, "--svg", &svg, "--html", &html]);
    let read = |file: &str| fs::read_to_string(file).unwrap();
    (output.status.code().unwrap(), [text(&output.stdout), read(&svg), read(&html)])
}

const FINE: &str = "frame 32 0x80000 16\nopen 0 5\nedit 0 0x40000000 0x1000 rw 1536\n";

#[test]
fn a_script_that_is_done_whole_is_success() {
    let (status, pictures) = drawn("fine", FINE);
    assert_eq!(status, 0);
    for picture in pictures {
        assert!(picture.contains("The table is sound.") && !picture.contains("REFUSED"), "{picture}");
    }
}

#[test]
fn refused_and_cut_commands_are_on_every_picture_and_the_status_is_3() {
    let undone = [
        ("open 0 6", "refused 4"),
        ("close 3", "refused 4"),
        ("edit 0 0x80000000 0x1000 rx 1536", "refused 6"),
        ("edit 0 0x1001 0x1000 rx 1536", "refused 5"),
        ("edit 0 0x0 0x1000 rx 100", "cut after 100 stores"),
        ("lookup 0x2000000000000000 s load 0x0", "refused 2"),
    ];
    for (nth, (command, why)) in undone.iter().enumerate() {
        let (status, pictures) = drawn(&format!("undone-{nth}"), &format!("{FINE}# a comment\n{command}\n"));
        assert_eq!(status, 3, "{command}");
        for picture in pictures {
            assert!(picture.contains("BUT 1 COMMAND WAS REFUSED OR CUT."), "{command}");
            assert!(picture.contains("line 5") && picture.contains(&format!("`{command}`: {why}")), "{picture}");
            assert!(!picture.contains("sound.\n") && !picture.contains("sound.<"), "{picture}");
        }
    }
}

#[test]
fn a_table_that_is_not_sound_or_whose_memory_is_open_is_no_success() {
    let (status, pictures) = drawn("unsound", &format!("{FINE}poke 0 0x500000000000\n"));
    assert!(status == 3 && pictures.iter().all(|picture| picture.contains("NOT SOUND")));
    let (status, pictures) = drawn("exposed", &format!("{FINE}poke 64 0x200000000000\n"));
    assert_eq!(status, 3);
    for picture in pictures {
        assert!(picture.contains("OPEN to rw: slot 0"), "{picture}");
        assert!(picture.contains("The table is sound, BUT ITS OWN MEMORY IS OPEN."), "{picture}");
    }
}

/// An L1 page's label is no level of the table: in the three pictures it is P and the slot, which the legend tells.
#[test]
fn lent_pages_are_labelled_by_use_and_slot() {
    let (_, [terminal, svg, html]) = drawn("labels", FINE);
    assert!(terminal.contains("  0x080000  R0 P0 .. ..") && terminal.contains("P0 L1 page of slot 0"), "{terminal}");
    assert!(svg.contains(">R0</text>") && svg.contains(">L1 page of slot 0</text>"), "{svg}");
    assert_eq!(svg.matches(">P0</text>").count(), 2, "the page and the legend");
    assert!(html.contains(">P0</i>") && html.contains("P0 an L1 page of slot 0"), "{html}");
    assert!([svg, html].iter().all(|picture| !picture.contains(">L0<")));
}

#[test]
fn the_examples() {
    let (cradles, slips) = (example("cradles.mpt"), example("slips.mpt"));
    let output = mpt(&["map", &cradles]);
    let picture = text(&output.stdout);
    assert_eq!(output.status.code(), Some(0));
    assert!(picture.contains("  0x0c0000000 to 0x0c7ffffff      128 MiB  rx: slots 0 1 2 3 4 5 6 7\n"), "{picture}");
    assert!(picture.contains("  0x080100000 to 0x080100fff        4 KiB  rw\n"), "the page for the screen");
    let output = mpt(&["map", "--both", &slips]);
    let picture = text(&output.stdout);
    assert_eq!(output.status.code(), Some(3));
    assert!(
        picture.contains("refused 6: ") && picture.contains("refused 10: ") && picture.contains("cut after 515 stores")
    );
    let (written, read) = (picture.find("one of them may write").unwrap(), picture.find("none may write").unwrap());
    assert!(picture[written..read].contains("0x04ffff000 to 0x04fffffff        4 KiB  rw: slots 0 1\n"), "{picture}");
    assert!(
        picture[written..read].contains("rw: slot 0; rx: slot 2\n") && picture[read..].contains("rx: slots 0 1 2\n")
    );
}

#[test]
fn lines_that_are_no_commands_are_all_named_and_nothing_is_drawn() {
    let script = file("errors.mpt");
    fs::write(&script, "frame 32 0x80000 16\nopne 0 5\nopen 0 5\npeek 0 0\n").unwrap();
    let output = mpt(&["map", &script]);
    let errors = text(&output.stderr);
    assert_eq!((output.status.code(), output.stdout.len()), (Some(2), 0));
    assert!(errors.contains(&format!("{script}: line 2: no command `opne`")), "{errors}");
    assert!(errors.contains(&format!("{script}: line 4: COUNT 0")), "{errors}");
    assert!(errors.contains("2 lines could not be obeyed"), "{errors}");
}

#[test]
fn long_lines_that_are_no_commands_are_quoted_in_part_and_image_is_named() {
    let image = file("long-lines");
    fs::write(&image, [&[0x11; 5000][..], b"\n", &[0x12; 5000]].concat()).unwrap();
    for command in ["run", "map"] {
        let output = mpt(&[command, &image]);
        let said = text(&output.stdout) + &text(&output.stderr);
        assert_eq!(output.status.code(), Some(2), "{said}");
        let quoted = format!("line 1: no command `{}..`; the commands are", "\\x11".repeat(20));
        assert!(said.contains(&quoted) && said.contains("line 2: "), "{said}");
        assert_eq!(said.contains("`mpt map --image FILE PAW FIRST`"), command == "map", "{said}");
    }
}

#[test]
fn a_frame_that_breaks_its_bounds_is_told_them() {
    let script = file("bounds.mpt");
    fs::write(&script, "frame 29 0x80000 0 1\n").unwrap();
    let output = mpt(&["map", &script]);
    let errors = text(&output.stderr);
    assert_eq!((output.status.code(), output.stdout.len()), (Some(2), 0));
    for part in ["PAW 30 to 34", "2 to 256 whole pages", "first page + pages at most 2^(PAW-12)", " PAW 29", " 1 word "]
    {
        assert!(errors.contains(part), "{part}: {errors}");
    }
}

#[test]
fn a_file_that_cannot_be_written_is_named() {
    for option in ["--svg", "--html"] {
        let output = mpt(&["map", &example("cradles.mpt"), option, "/no-such-folder/picture"]);
        assert_eq!(output.status.code(), Some(2));
        assert!(text(&output.stderr).contains("/no-such-folder/picture"));
        assert_eq!(mpt(&["map", &example("cradles.mpt"), option, "-"]).status.code(), Some(2));
    }
}
