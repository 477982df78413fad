//! What is told where the two part.
use std::fmt;

#[derive(Debug)]
pub struct Difference {
    pub sheet: Vec<u8>,
    pub call: String,
    pub wanted: String,
    pub given: String,
}

/// The bytes as two hexadecimal figures each.
pub fn hex(bytes: &[u8]) -> String {
    bytes.iter().map(|byte| format!("{byte:02x}")).collect()
}

/// The bytes of such figures.
pub fn unhex(text: &str) -> Option<Vec<u8>> {
    let pairs = (0..text.len()).step_by(2).map(|at| text.get(at..at + 2));
    pairs.map(|pair| u8::from_str_radix(pair?, 16).ok()).collect()
}

/// The beginning of an answer: one call may hand out megabytes.
fn beginning(text: &str) -> &str {
    const SHOWN: usize = 4000;
    text.char_indices().nth(SHOWN).map_or(text, |(end, _)| &text[..end])
}

impl fmt::Display for Difference {
    fn fmt(&self, f: &mut fmt::Formatter<'_>) -> fmt::Result {
        writeln!(f, "sheet  {}", hex(&self.sheet))?;
        writeln!(f, "call   {}", self.call)?;
        writeln!(f, "wanted {}", beginning(&self.wanted))?;
        write!(f, "given  {}", beginning(&self.given))
    }
}
