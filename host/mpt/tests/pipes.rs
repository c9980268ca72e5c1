//! The command among files, pipes and bytes of all kinds.

use std::ffi::OsStr;
use std::fs::{self, File};
use std::io::{Read, Write};
use std::os::unix::ffi::OsStrExt;
use std::path::PathBuf;
use std::process::{Command, Stdio};
use std::sync::atomic::{AtomicUsize, Ordering};

fn command(words: &[&str]) -> Command {
    let mut command = Command::new(env!("CARGO_BIN_EXE_mpt"));
    command.args(words).stdin(Stdio::null()).stdout(Stdio::piped()).stderr(Stdio::piped());
    command
}

/// Exit status, standard output and standard error.
fn ended(mut command: Command) -> (i32, String, String) {
    let output = command.output().unwrap();
    let text = |bytes: &[u8]| String::from_utf8(bytes.to_vec()).unwrap();
    (output.status.code().unwrap(), text(&output.stdout), text(&output.stderr))
}

fn file(name: &str) -> PathBuf {
    PathBuf::from(env!("CARGO_TARGET_TMPDIR")).join(name)
}

/// With standard input, and then its end. Each call has a file of its own, since tests run side by side.
fn fed(words: &[&str], input: &[u8]) -> (i32, String, String) {
    static CALLS: AtomicUsize = AtomicUsize::new(0);
    let name = file(&format!("input-{}", CALLS.fetch_add(1, Ordering::Relaxed)));
    fs::write(&name, input).unwrap();
    let mut command = command(words);
    command.stdin(File::open(name).unwrap());
    ended(command)
}

#[test]
fn a_closed_pipe_ends_quietly_with_success() {
    // far more than a pipe holds
    let script = file("long");
    fs::write(&script, format!("frame 32 1 2\n{}", "peek 0 512\n".repeat(2000))).unwrap();
    let script = script.to_str().unwrap();
    for words in [&["run", script, "--second"][..], &["map", script, "--second"], &["help"], &["cases", "--second"]] {
        let mut child = command(words).spawn().unwrap();
        let mut byte = [0];
        if words[0] == "run" {
            child.stdout.as_mut().unwrap().read_exact(&mut byte).unwrap();
        }
        drop(child.stdout.take());
        let output = child.wait_with_output().unwrap();
        assert_eq!((output.status.code(), output.stderr), (Some(0), Vec::new()), "{words:?}");
    }
}

#[test]
fn a_failure_that_is_known_stands_though_nobody_reads() {
    let script = file("wrong-and-long");
    fs::write(&script, format!("open\nframe 32 1 2\n{}", "peek 0 512\n".repeat(2000))).unwrap();
    let mut child = command(&["run", script.to_str().unwrap()]).spawn().unwrap();
    let mut byte = [0];
    child.stdout.as_mut().unwrap().read_exact(&mut byte).unwrap();
    drop(child.stdout.take());
    assert_eq!(child.wait().unwrap().code(), Some(2));
}

#[test]
fn a_full_disk_is_an_error() {
    let script = file("short");
    fs::write(&script, "frame 32 1 2\nopen 0 5\n").unwrap();
    let script = script.to_str().unwrap();
    for words in
        [&["run", script][..], &["map", script], &["help"], &["cases"], &["--version"], &["test", "--count", "9"]]
    {
        let mut command = command(words);
        command.stdout(File::options().write(true).open("/dev/full").unwrap());
        let (status, _, error) = ended(command);
        assert!(status == 2 && error.contains("standard output: "), "{words:?}: {status} {error}");
    }
}

#[test]
fn standard_error_may_be_closed_too() {
    let mut child = command(&["run", "no-such-file"]).spawn().unwrap();
    drop(child.stderr.take());
    assert_eq!(child.wait().unwrap().code(), Some(2));
}

#[test]
fn a_dash_is_standard_input() {
    let input = b"\xef\xbb\xbfframe 32 0x80000 16\r\nopen 0 5\r\n";
    for words in [&["run", "--second"][..], &["run", "--second", "-"]] {
        assert_eq!(fed(words, input), (0, "ok\nopened 0x1140000000080000\n".to_string(), String::new()));
    }
    let (status, picture, _) = fed(&["map", "-"], input);
    assert!(status == 0 && picture.contains("slot 0: SDID 5"));
}

#[test]
fn what_cannot_be_read_is_named() {
    for command_name in ["run", "map"] {
        for (name, why) in [("no-such-file", "No such file"), (env!("CARGO_MANIFEST_DIR"), "is a directory")] {
            let (status, _, error) = ended(command(&[command_name, name]));
            assert!(status == 2 && error.contains(name) && error.contains(why), "{error}");
        }
    }
    let mut from_folder = command(&["run"]);
    from_folder.stdin(File::open(env!("CARGO_MANIFEST_DIR")).unwrap());
    let (status, _, error) = ended(from_folder);
    assert!(status == 2 && error.contains("standard input"), "{error}");
}

/// A table that `save` wrote, text in UTF-16, and a script with a stray byte in its third line.
#[test]
fn a_file_that_is_no_text_is_named_once_and_nothing_of_it_is_obeyed() {
    let (image, saved) = (file("saved-table"), file("saved-by-no-text"));
    let (image, saved) = (image.to_str().unwrap(), saved.to_str().unwrap());
    assert_eq!(fed(&["run", "--second"], format!("frame 32 0x80000 16\nopen 0 5\nsave {image}\n").as_bytes()).0, 0);
    let wide: Vec<u8> = "frame 32 1 2\r\n".encode_utf16().flat_map(u16::to_le_bytes).collect();
    let stray = format!("frame 32 1 2\nsave {saved}\n# \0\nfree\nopne\n");
    let files = [(fs::read(image).unwrap(), 1), ([&b"\xff\xfe"[..], &wide].concat(), 1), (stray.into_bytes(), 3)];
    let _ = fs::remove_file(saved);
    for (nth, (bytes, line)) in files.iter().enumerate() {
        let script = file(&format!("no-text-{nth}"));
        fs::write(&script, bytes).unwrap();
        for name in ["run", "map"] {
            let (status, output, error) = ended(command(&[name, script.to_str().unwrap(), "--second"]));
            assert_eq!((status, output.as_str(), error.lines().count()), (2, "", 1), "{error}");
            let wanted = format!("no-text-{nth}: line {line} has a zero byte: this is no text of commands");
            assert!(error.contains(&wanted) && error.contains("`mpt map --image FILE PAW FIRST`"), "{error}");
        }
        assert!(!PathBuf::from(saved).exists(), "a line before the zero byte was obeyed");
    }
}

/// What comes from a pipe is answered line by line, so that the lines before it are obeyed.
#[test]
fn a_pipe_that_is_no_text_is_read_up_to_there() {
    let input = b"frame 32 1 2\nfree\n\x7fELF\0\n\0\nfree\n";
    let (status, output, error) = fed(&["run", "--second", "-"], input);
    assert_eq!((status, output.as_str(), error.lines().count()), (2, "ok\nfree 2\n", 1), "{error}");
    assert!(error.contains("standard input: line 3 has a zero byte"), "{error}");
    let (status, output, error) = fed(&["map", "--second"], input);
    assert_eq!((status, output.as_str(), error.lines().count()), (2, "", 1), "{error}");
    for name in ["run", "map"] {
        let (status, _, error) = ended(command(&[name, "/dev/zero"]));
        assert!(status == 2 && error.contains("/dev/zero: line 1 has a zero byte"), "{error}");
    }
}

#[test]
fn no_byte_of_a_script_or_a_name_reaches_the_terminal_raw() {
    let (status, output, _) = fed(&["run", "--second"], b"frame 32 1 2\n\x1b[2J\x07\xff 1\nload a\x08b\n");
    assert_eq!(status, 2);
    assert!(output.contains("line 2: no command `\\x1b[2J\\x07\\xff`") && output.contains("a\\x08b"), "{output}");
    assert!(output.bytes().all(|byte| byte == b'\n' || byte >= b' '));
    let mut named = command(&["run"]);
    named.arg(OsStr::from_bytes(b"\x1b[2J\xff"));
    let (status, _, error) = ended(named);
    assert!(status == 2 && error.contains("\\x1b[2J\\xff"), "{error}");
    // and a name that is no UTF-8 is that of its file
    let odd = PathBuf::from(OsStr::from_bytes(&[file("odd").as_os_str().as_bytes(), b"\xff"].concat()));
    File::create(&odd).unwrap().write_all(b"frame 32 1 2\n").unwrap();
    let mut named = command(&["run", "--second"]);
    named.arg(&odd);
    assert_eq!(ended(named).1, "ok\n");
}

#[test]
fn help_and_version() {
    for name in ["run", "cases", "map", "test", "fuzz", "bench"] {
        let (status, help, _) = ended(command(&[name, "--help"]));
        assert!(status == 0 && help.starts_with(&format!("mpt {name} ")), "{help}");
        assert!(help.contains("Exit status: 0"), "{help}");
        assert_eq!(ended(command(&["help", name])), (0, help.clone(), String::new()));
        assert_eq!(ended(command(&[name, "-h"])).1, help);
    }
    assert_eq!(ended(command(&["help", "walk"])).0, 2);
    let (status, version, _) = ended(command(&["--version"]));
    assert!(status == 0 && version.starts_with(concat!("mpt ", env!("CARGO_PKG_VERSION"))), "{version}");
}

#[test]
fn any_number_of_seconds_may_be_asked_for() {
    let mut child = command(&["fuzz", "--seconds", "18446744073709551615"]).spawn().unwrap();
    std::thread::sleep(std::time::Duration::from_millis(300));
    assert_eq!(child.try_wait().unwrap(), None, "it goes on");
    child.kill().unwrap();
    child.wait().unwrap();
}
