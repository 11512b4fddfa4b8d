//! The filing program where a standard stream fails: it prints nothing of an
//! input that was not read to its end, says on standard error which stream
//! failed, and ends normally.

mod common;
use common::plans::Owned;
use common::program::program;
use common::texts::text;
use std::io::Write;
use std::os::fd::OwnedFd;
use std::os::unix::net::UnixStream;
use std::process::{Command, Output, Stdio};

/// A text in order, one that is refused at once, one that is not whole, and none.
fn texts() -> [Vec<u8>; 4] {
    let whole = text(&Owned::xor(), &[(0, 0), (1, 1), (2, 1), (3, 0)]);
    let half = whole[..whole.len() / 2].to_vec();
    [whole, b"no plan\n".to_vec(), half, Vec::new()]
}

/// What the program does on a text, its streams redirected by the shell.
fn redirected(to: &str, text: &[u8]) -> Output {
    let mut shell = Command::new("sh")
        .args(["-c", &format!("exec \"$0\" {to}")])
        .arg(program())
        .stdin(Stdio::piped())
        .stdout(Stdio::piped())
        .stderr(Stdio::piped())
        .spawn()
        .expect("a shell");
    // A program that has another standard input does not take the text.
    let _ = shell.stdin.take().expect("a pipe").write_all(text);
    shell.wait_with_output().expect("the program's output")
}

/// That the program ended normally, printed this, and said this on standard
/// error.
fn wrote(output: &Output, printed: &[u8], said: &str) {
    assert!(output.status.success(), "{}", output.status);
    assert_eq!(String::from_utf8_lossy(&output.stderr), said);
    assert_eq!(
        output.stdout.escape_ascii().to_string(),
        printed.escape_ascii().to_string()
    );
}

#[test]
fn no_standard_input() {
    for text in texts() {
        let output = redirected("<&-", &text);
        wrote(&output, b"", "standard input: Bad file descriptor\n");
    }
}

#[test]
fn a_directory_as_standard_input() {
    let output = redirected("</", b"");
    wrote(&output, b"", "standard input: Is a directory\n");
}

#[test]
fn a_text_and_then_an_error() {
    for text in texts() {
        // A stream that stays open and does not wait: after the text, a read fails.
        let (mut ours, theirs) = UnixStream::pair().expect("two streams");
        theirs.set_nonblocking(true).expect("no waiting");
        ours.write_all(&text).expect("a text written");
        let mut command = Command::new(program());
        let output = command.stdin(OwnedFd::from(theirs)).output();
        let said = "standard input: Resource temporarily unavailable\n";
        wrote(&output.expect("the program's output"), b"", said);
        drop(ours);
    }
}

#[test]
fn no_standard_output() {
    for text in texts() {
        let output = redirected(">&-", &text);
        wrote(&output, b"", "standard output: Bad file descriptor\n");
    }
}

#[test]
fn a_full_device_as_standard_output() {
    for text in texts() {
        let output = redirected(">/dev/full", &text);
        wrote(&output, b"", "standard output: No space left on device\n");
    }
}

#[test]
fn neither_input_nor_output() {
    let output = redirected("<&- >&-", b"");
    wrote(&output, b"", "standard input: Bad file descriptor\n");
}

#[test]
fn no_standard_error() {
    for text in texts() {
        let output = redirected("2>&-", &text);
        wrote(&output, &reference::filing_program(&text), "");
    }
    wrote(&redirected("<&- 2>&-", b""), b"", "");
    wrote(&redirected("2>&- >/dev/full", b""), b"", "");
}
