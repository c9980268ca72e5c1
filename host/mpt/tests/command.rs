//! The command as a user has it: what it writes, and its exit status.

use std::fs;
use std::io::Write;
use std::path::PathBuf;
use std::process::{Command, Stdio};

/// Exit status, standard output and standard error.
fn mpt(words: &[&str], input: &str) -> (i32, String, String) {
    mpt_bytes(words, input.as_bytes())
}

fn mpt_bytes(words: &[&str], input: &[u8]) -> (i32, String, String) {
    let mut child = Command::new(env!("CARGO_BIN_EXE_mpt"))
        .args(words)
        .stdin(Stdio::piped())
        .stdout(Stdio::piped())
        .stderr(Stdio::piped())
        .spawn()
        .unwrap();
    // a command that does not read its input may be gone by now
    let _ = child.stdin.take().unwrap().write_all(input);
    let output = child.wait_with_output().unwrap();
    let text = |bytes| String::from_utf8(bytes).unwrap();
    (output.status.code().unwrap(), text(output.stdout), text(output.stderr))
}

/// A file of its own for a test.
fn file(name: &str) -> PathBuf {
    PathBuf::from(env!("CARGO_TARGET_TMPDIR")).join(name)
}

const CASE_D: &str = "frame 32 0x80000 16
open 0 5
edit 0 0x40000000 0x1000 rw 513
lookup 0x1140000000080000 s load 0x40000000
lookup 0x1140000000080000 s load 0x40001000
edit 0 0x40000000 0x1000 rw 1536
";

#[test]
fn run_answers_line_by_line() {
    let answers = "ok
opened 0x1140000000080000
edited 513 part fence domain 5
allowed
fault 5
edited 31 all fence domain 5
";
    for program in ["--second", "--plain", "--both"] {
        let (status, output, _) = mpt(&["run", program], CASE_D);
        assert_eq!((status, output.as_str()), (0, answers), "{program}");
    }
    let script = file("case-d");
    fs::write(&script, CASE_D).unwrap();
    assert_eq!(mpt(&["run", script.to_str().unwrap()], "").1, answers);
}

#[test]
fn an_error_line_gives_status_2_and_changes_nothing() {
    let (status, output, _) = mpt(&["run", "--both"], "frame 32 1 2\npoke 0 5\nframe 32 1\nframe 32 1 2 3 4\npeek 0\n");
    let lines: Vec<&str> = output.lines().collect();
    assert_eq!((status, lines.len()), (2, 5));
    assert!(lines[2].starts_with("error: line 3: PAGES is missing"), "{output}");
    assert!(lines[3].starts_with("error: line 4: `4` is too much"), "{output}");
    assert_eq!(lines[4], "0000000000000005");
}

#[test]
fn save_and_load_and_map_an_image() {
    let (image, svg) = (file("image"), file("map.svg"));
    let (image, svg) = (image.to_str().unwrap(), svg.to_str().unwrap());
    let input = format!("{CASE_D}sum\nsave {image}\nframe 32 0x80000 2\nload {image}\nsum\npeek 32\n");
    let (status, output, _) = mpt(&["run"], &input);
    let lines: Vec<&str> = output.lines().collect();
    assert_eq!((status, lines[6], lines[11]), (0, lines[10], "0000400000080001"));
    assert_eq!(fs::metadata(image).unwrap().len(), 64 + 16 * 4096);
    let (status, output, _) = mpt(&["map", "--image", image, "32", "0x80000", "--svg", svg], "");
    assert_eq!(status, 0);
    let row = format!("0x040000000  W*{}", ".:".repeat(31));
    assert!(output.lines().any(|line| line == row), "{output}");
    assert!(output.contains("  0x040000000 to 0x040000fff        4 KiB  rw\n"), "{output}");
    assert!(fs::read_to_string(svg).unwrap().contains("Slot 0: SDID 5"));
    let bytes = fs::read(image).unwrap();
    assert_eq!(mpt_bytes(&["map", "--image", "-", "32", "0x80000"], &bytes).1, output, "standard input");
    fs::write(image, [0; 65]).unwrap();
    assert!(mpt(&["run"], &format!("frame 32 1 2\nload {image}\n")).1.contains("error: "));
}

#[test]
fn cases_and_a_short_test_succeed() {
    let (status, output, _) = mpt(&["cases"], "");
    assert!(status == 0 && output.contains("\nK  edit"), "{output}");
    let (status, output, _) = mpt(&["test", "--seed", "9", "--count", "500"], "");
    assert!(status == 0 && output.starts_with("seed 9: 500 calls"), "{output}");
}

#[test]
fn wrong_use_is_named_and_no_success() {
    let wrong = [
        (&[][..], "mpt help"),
        (&["walk"], "`walk`"),
        (&["run", "--fast"], "--fast"),
        (&["run", "no-such-file"], "no-such-file"),
        (&["run", "--second", "--plain"], "together"),
        (&["test", "--seed"], "--seed needs a value"),
        (&["map", "--image", "a", "32"], "FILE PAW FIRST"),
        (&["map"], "frame"),
    ];
    for (words, named) in wrong {
        let (status, _, error) = mpt(words, "");
        assert!(status == 2 && error.contains(named), "{words:?}: {error}");
    }
    let (status, output, _) = mpt(&["help"], "");
    assert!(status == 0 && output.contains("mpt bench"));
}
