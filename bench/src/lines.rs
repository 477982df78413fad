//! The printed list, written by the other ways alike.
use crate::sheet::{Readings, Sheet, TOP};
use differential::{Refused, LAST};
use std::collections::BTreeSet;

/// Lines of readings, as many as are printed.
pub struct Lines {
    text: Vec<u8>,
    /// " root:" of each fragment, and the figures of each leaf.
    roots: Vec<Vec<u8>>,
    leaves: Vec<Vec<u8>>,
    /// The number of the last reading, in figures.
    number: [u8; 20],
    figures: usize,
    count: u64,
}

impl Lines {
    pub fn new(sheet: &Sheet) -> Lines {
        Lines {
            text: Vec::with_capacity(1 << 16),
            roots: sheet.roots.iter().map(|root| format!(" {root}:").into_bytes()).collect(),
            leaves: sheet.leaves.iter().map(|leaf| leaf.to_string().into_bytes()).collect(),
            number: [b'0'; 20],
            figures: 1,
            count: 0,
        }
    }

    /// The number's next value, figure by figure.
    fn step(&mut self) {
        let mut at = self.number.len() - 1;
        while self.number[at] == b'9' {
            self.number[at] = b'0';
            at -= 1;
        }
        self.number[at] += 1;
        self.figures = self.figures.max(self.number.len() - at);
    }

    /// The whole list, line 1 before the others.
    pub fn finish(self) -> Vec<u8> {
        if self.count == 0 {
            return refused(9);
        }
        let mut text = match self.count {
            count if count > LAST => b"readings more than 65535\n".to_vec(),
            count => format!("readings {count}\n").into_bytes(),
        };
        text.extend_from_slice(&self.text);
        text
    }
}

impl Readings for Lines {
    fn push(&mut self, hanging: impl Iterator<Item = u8>) {
        self.count += 1;
        if self.is_full() {
            return;
        }
        self.step();
        self.text.extend_from_slice(&self.number[self.number.len() - self.figures..]);
        for (root, leaf) in self.roots.iter().zip(hanging).filter(|&(_, leaf)| leaf != TOP) {
            self.text.extend_from_slice(root);
            self.text.extend_from_slice(&self.leaves[usize::from(leaf)]);
        }
        self.text.push(b'\n');
    }

    /// The reading after the last printed one is counted: it makes the count "more".
    fn is_full(&self) -> bool {
        self.count > LAST
    }
}

pub fn refused(number: Refused) -> Vec<u8> {
    format!("refused {number}\n").into_bytes()
}

/// What line 1 says.
pub fn count(text: &[u8]) -> String {
    String::from_utf8_lossy(text).lines().next().unwrap_or_default().replace("readings ", "")
}

/// The lines after the first, without their numbers.
fn readings(text: &str) -> BTreeSet<&str> {
    text.lines().skip(1).map(|line| line.split_once(' ').map_or("", |(_, hung)| hung)).collect()
}

/// We, the recursions and `readings` list in one order, byte for byte; free fragments list in another, but the same readings.
pub fn compare(in_order: &[&[u8]], free: Option<&[u8]>) -> Result<(), String> {
    if in_order.windows(2).any(|pair| pair[0] != pair[1]) {
        return Err("a recursion or `readings` lists otherwise".to_string());
    }
    let (Some(&ours), Some(free)) = (in_order.first(), free) else {
        return Ok(());
    };
    let alike = count(ours) == count(free);
    let whole = !count(ours).starts_with("more");
    let (ours, free) = (String::from_utf8_lossy(ours), String::from_utf8_lossy(free));
    if !alike || whole && readings(&ours) != readings(&free) {
        return Err("free fragments list otherwise".to_string());
    }
    Ok(())
}
