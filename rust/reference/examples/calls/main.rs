//! What the reference prints for a file of test vectors, which is what has to
//! be stored beside them; tests hold the two equal (tests/stored_cases.rs). The
//! interpreter is `reference::interface`.
//!
//!     cargo run --release --offline -p reference --example calls < vectors/calls.txt > vectors/calls.out
//!     cargo run --release --offline -p reference --example calls < vectors/recorded.txt > vectors/recorded.out
//!     cargo run --release --offline -p reference --example calls < vectors/cases.txt > vectors/cases.out

use reference::interface::{output, Reference};
use std::io::{read_to_string, stdin, stdout, Result, Write};

fn main() -> Result<()> {
    let vectors = read_to_string(stdin())?;
    stdout().write_all(&output::<Reference>(&vectors))
}
