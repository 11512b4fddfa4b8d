//! FLINT as a process of its own, so that the crate builds where FLINT is not
//! installed. CELERYCRAG_FLINT names the program made from flint_rref.c.

use std::io::{Read, Result, Write};
use std::process::{Child, ChildStdin, ChildStdout, Command, Stdio};

pub struct Flint {
    child: Child,
    to: ChildStdin,
    from: ChildStdout,
}

/// What FLINT answers for a matrix.
pub struct Reduced {
    pub nanoseconds: u64,
    /// The rows that are not zero, one after another.
    pub rows: Vec<u8>,
}

impl Flint {
    /// Starts the program, where there is one.
    pub fn start() -> Option<Flint> {
        let program = std::env::var_os("CELERYCRAG_FLINT")?;
        let mut child = Command::new(program)
            .stdin(Stdio::piped())
            .stdout(Stdio::piped())
            .spawn()
            .ok()?;
        let (to, from) = (child.stdin.take()?, child.stdout.take()?);
        Some(Flint { child, to, from })
    }

    /// The reduced row echelon form of a matrix with these rows.
    pub fn reduce(&mut self, p: usize, columns: usize, rows: &[u8]) -> Result<Reduced> {
        for number in [p, rows.len() / columns, columns] {
            self.to.write_all(&(number as u64).to_ne_bytes())?;
        }
        self.to.write_all(rows)?;
        self.to.flush()?;
        let mut number = || {
            let mut bytes = [0; 8];
            self.from.read_exact(&mut bytes)?;
            Ok::<u64, std::io::Error>(u64::from_ne_bytes(bytes))
        };
        let (nanoseconds, rank) = (number()?, number()?);
        let mut rows = vec![0; rank as usize * columns];
        self.from.read_exact(&mut rows)?;
        Ok(Reduced { nanoseconds, rows })
    }
}

impl Drop for Flint {
    fn drop(&mut self) {
        // It ends by itself as well, once its input does.
        let _ = self.child.kill();
        let _ = self.child.wait();
    }
}
