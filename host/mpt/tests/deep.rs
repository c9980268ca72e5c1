//! `mpt test` and `mpt fuzz` as a user has them.

use std::process::{Command, Stdio};
use std::thread::sleep;
use std::time::Duration;

fn mpt(words: &[&str]) -> (i32, String) {
    let output = Command::new(env!("CARGO_BIN_EXE_mpt")).args(words).output().unwrap();
    (output.status.code().unwrap(), String::from_utf8(output.stdout).unwrap())
}

#[test]
fn a_short_test_says_what_it_reached_and_one_sequence_can_be_made_alone() {
    let (status, said) = mpt(&["test", "--seed", "3", "--count", "500", "--threads", "2"]);
    assert_eq!(status, 0, "{said}");
    let begins = |line: &str| said.lines().any(|each| each.starts_with(line));
    assert!(begins("seed 3: 500 calls on each of ") && begins("refusals") && begins("cuts"), "{said}");
    assert!(said.lines().last().unwrap().contains("asked of 1000000 calls"), "{said}");
    let (status, said) = mpt(&["test", "--seed", "3", "--sequence", "5"]);
    assert_eq!((status, said.lines().count()), (0, 2), "{said}");
}

#[test]
fn a_fuzz_without_end_goes_on() {
    let words = ["fuzz", "--seconds", "18446744073709551615"];
    let quiet = || Stdio::null();
    let mut child =
        Command::new(env!("CARGO_BIN_EXE_mpt")).args(words).stdout(quiet()).stderr(quiet()).spawn().unwrap();
    sleep(Duration::from_millis(500));
    let ended = child.try_wait().unwrap();
    child.kill().unwrap();
    child.wait().unwrap();
    assert_eq!(ended, None);
}
