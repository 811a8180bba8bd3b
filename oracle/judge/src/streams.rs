//! The text program where its input cannot be read to the end, or its output cannot be written.

use std::fs::{File, OpenOptions};
use std::io::Write;
use std::os::fd::OwnedFd;
use std::os::unix::net::UnixStream;
use std::process::{Command, Output, Stdio};

use crate::texts;

/// A text with a solution.
const SOUND: &[u8] = b"a\na\n";

/// A text that is refused.
const FAULTY: &[u8] = b"a\nb\n";

fn run(command: &str, input: Stdio, output: Stdio) -> Output {
    let child = Command::new("sh").args(["-c", command]).stdin(input).stdout(output).stderr(Stdio::piped()).spawn();
    let output = child.expect("the program starts").wait_with_output().expect("the program ends");
    assert!(output.status.success(), "{command} ended with {}", output.status);
    output
}

/// A text that is read to its end or, if its other end is closed with a byte unread, to an error after the last byte.
fn input_of(text: &[u8], ends: bool) -> Stdio {
    let (mut reader, mut writer) = UnixStream::pair().expect("a pair of sockets");
    writer.write_all(text).expect("the text fits");
    if !ends {
        reader.write_all(b"x").expect("a byte fits");
    }
    Stdio::from(OwnedFd::from(reader))
}

/// A text of which a read fails counts as missing, and a word on standard error tells of it.
fn unreadable(program: &str) {
    let closed = format!("{program} <&-");
    let folder = File::open("/").expect("a folder can be opened");
    let runs = [
        ("a closed one", run(&closed, Stdio::null(), Stdio::piped())),
        ("a folder", run(program, Stdio::from(folder), Stdio::piped())),
        ("one that breaks off", run(program, input_of(SOUND, false), Stdio::piped())),
    ];
    for (input, output) in runs {
        assert_eq!(String::from_utf8_lossy(&output.stdout), "refused 13 0\n", "input: {input}");
        assert!(!output.stderr.is_empty(), "nothing is said of the input: {input}");
    }
}

/// Where a write fails the program ends with a word on standard error.
fn unwritable(program: &str) {
    for text in [SOUND, FAULTY, &texts::several_pages()] {
        let full = OpenOptions::new().write(true).open("/dev/full").expect("a full device");
        let output = run(program, input_of(text, true), Stdio::from(full));
        let shown = String::from_utf8_lossy(text);
        assert!(!output.stderr.is_empty(), "nothing is said of the output: {shown:?}");
    }
}

/// Where all can be read and written, nothing is said.
fn silent(program: &str) {
    let output = run(program, input_of(SOUND, true), Stdio::piped());
    assert_eq!((&output.stdout[..], &output.stderr[..]), (&b"0\n"[..], &b""[..]));
}

pub fn exercise(program: &str) {
    silent(program);
    unreadable(program);
    unwritable(program);
    println!("inputs that cannot be read: 3; outputs that cannot be written: 3");
}
