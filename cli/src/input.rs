//! What the words are given. Nobody need end an input: no more is read than tells what it is.
use crate::words::Failure;
use std::fs::File;
use std::io::{stdin, Read};

/// A text has at most so many bytes, comments and all.
const TEXT: u64 = 1 << 20;

pub fn number(word: &str) -> Result<u64, Failure> {
    word.parse().map_err(|_| Failure::Usage)
}

/// The sheet on standard input, and of one that is too long a byte more than it may have.
pub fn sheet() -> Result<Vec<u8>, Failure> {
    let mut bytes = Vec::new();
    let read = stdin().take(bixtogan::LONGEST as u64 + 1).read_to_end(&mut bytes);
    read.map_err(|why| Failure::Input(format!("standard input: {why}")))?;
    Ok(bytes)
}

fn read_text(from: impl Read, name: &str) -> Result<String, Failure> {
    let mut bytes = Vec::new();
    from.take(TEXT + 1).read_to_end(&mut bytes).map_err(|why| Failure::Input(format!("{name}: {why}")))?;
    if bytes.len() as u64 > TEXT {
        return Err(Failure::Input(format!("{name}: more than {TEXT} bytes")));
    }
    String::from_utf8(bytes).map_err(|_| Failure::Input(format!("{name}: the text is not UTF-8")))
}

/// The text on standard input.
pub fn text() -> Result<String, Failure> {
    read_text(stdin(), "standard input")
}

/// The text of a file.
pub fn file(name: &str) -> Result<String, Failure> {
    let file = File::open(name).map_err(|why| Failure::Input(format!("{name}: {why}")))?;
    read_text(file, name)
}
