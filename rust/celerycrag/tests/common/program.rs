//! The filing program, and what it prints.

use std::io::{ErrorKind, Write};
use std::path::PathBuf;
use std::process::{Child, Command, Stdio};
use std::thread;
use std::time::Duration;

/// Its file: that of CELERYCRAG_FILING, else of target/bin at the root of the
/// repository, where `tools/build` puts it.
pub fn program() -> PathBuf {
    let built = concat!(env!("CARGO_MANIFEST_DIR"), "/../../target/bin/filing");
    let path = std::env::var_os("CELERYCRAG_FILING").map_or(PathBuf::from(built), PathBuf::from);
    assert!(
        path.is_file(),
        "no filing program at {}: build it with 'tools/build', or set CELERYCRAG_FILING",
        path.display()
    );
    path
}

/// The program, started, with pipes to and from it.
fn start() -> Child {
    let pipes = Command::new(program())
        .stdin(Stdio::piped())
        .stdout(Stdio::piped())
        .stderr(Stdio::piped())
        .spawn();
    pipes.expect("the program, started")
}

/// What the program prints for a text that comes in these pieces. It has to
/// end normally and to leave standard error alone.
pub fn prints(pieces: &[&[u8]]) -> Vec<u8> {
    let mut program = start();
    let mut input = program.stdin.take().expect("a pipe");
    let output = thread::scope(|scope| {
        scope.spawn(move || {
            for (k, piece) in pieces.iter().enumerate() {
                if k > 0 {
                    // Time for the program to take the piece before alone; it
                    // is no matter where it does not.
                    thread::sleep(Duration::from_micros(1));
                }
                match input.write_all(piece) {
                    // A refused text need not be read to its end.
                    Err(error) if error.kind() == ErrorKind::BrokenPipe => break,
                    written => written.expect("a piece written"),
                }
            }
        });
        program.wait_with_output().expect("the program's output")
    });
    assert!(output.status.success(), "{}", output.status);
    assert_eq!(output.stderr.escape_ascii().to_string(), "");
    output.stdout
}
