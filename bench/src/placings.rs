//! The list as placings, n bytes each, as the call of the library writes it; and the count alone.
use crate::sheet::{Readings, Sheet, TOP};
use bixtogan::Place;
use differential::LAST;

/// A buffer for the placings of a sheet, which is used again and again.
pub struct Placings<'a> {
    sheet: &'a Sheet,
    out: Vec<u8>,
    written: usize,
}

impl<'a> Placings<'a> {
    /// With room for every list.
    pub fn new(sheet: &'a Sheet) -> Placings<'a> {
        Placings { sheet, out: vec![0; LAST as usize * sheet.nodes], written: 0 }
    }

    pub fn clear(&mut self) {
        self.written = 0;
    }

    /// Has the library write all of them by one call.
    pub fn fill(&mut self, sheet: &[u8]) {
        self.written = Place::start().fill(sheet, &mut self.out).map_or(0, |readings| readings * self.sheet.nodes);
    }

    pub fn written(&self) -> &[u8] {
        &self.out[..self.written]
    }
}

impl Readings for Placings<'_> {
    fn push(&mut self, hanging: impl Iterator<Item = u8>) {
        let placing = &mut self.out[self.written..self.written + self.sheet.nodes];
        placing.fill(TOP);
        for (&root, leaf) in self.sheet.roots.iter().zip(hanging) {
            if leaf != TOP {
                placing[usize::from(root)] = self.sheet.leaves[usize::from(leaf)];
            }
        }
        self.written += self.sheet.nodes;
    }

    fn is_full(&self) -> bool {
        self.written == self.out.len()
    }
}

/// The number of readings, up to "more".
#[derive(Default)]
pub struct Counted(pub u64);

impl Readings for Counted {
    fn push(&mut self, _: impl Iterator<Item = u8>) {
        self.0 += 1;
    }

    fn is_full(&self) -> bool {
        self.0 > LAST
    }
}
