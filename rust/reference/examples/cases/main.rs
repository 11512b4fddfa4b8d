//! What the reference prints for a file of test vectors, which is what has to
//! be stored beside them; tests hold the two equal (tests/stored_cases.rs). The
//! interpreter is `reference::vectors`.
//!
//!     cargo run --release --offline -p reference --example cases < ../crates/cases/stdin > ../crates/cases/stdout
//!     cargo run --release --offline -p reference --example cases < vectors/records.txt > vectors/records.out

use reference::vectors::{output, Reference};
use std::io::{read_to_string, stdin, stdout, Result, Write};

fn main() -> Result<()> {
    let vectors = read_to_string(stdin())?;
    stdout().write_all(&output::<Reference>(&vectors))
}
