//! Where two outputs differ.

/// Whether a line is a call: of the C interface, or of the program `cases`.
fn is_call(line: &str) -> bool {
    line.starts_with("celery_") || line.contains("::")
}

/// The first line in which an output differs from the stored one, with the
/// name and the call above it.
pub fn difference(stored: &str, given: &str) -> Option<String> {
    let (mut name, mut call) = ("", "");
    let (mut stored, mut given) = (stored.split('\n'), given.split('\n'));
    for number in 1.. {
        match (stored.next(), given.next()) {
            (None, None) => break,
            (Some(line), Some(same)) if line == same => match line {
                _ if line.starts_with('#') => name = line,
                _ if is_call(line) => call = line,
                _ => {}
            },
            (stored, given) => {
                let both = format!("stored {stored:?}, given {given:?}");
                return Some(format!(
                    "line {number}, under {name:?}, of {call:?}: {both}"
                ));
            }
        }
    }
    None
}
