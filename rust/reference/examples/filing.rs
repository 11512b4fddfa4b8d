//! The filing program over the reference: reads standard input, prints the
//! program or the refusal.
//!
//!     cargo run --example filing < ../examples/xor.txt

use std::io::{Read, Result, Write};

fn main() -> Result<()> {
    let mut input = Vec::new();
    std::io::stdin().read_to_end(&mut input)?;
    std::io::stdout().write_all(&reference::filing_program(&input))
}
