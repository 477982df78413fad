//! Section 5's recursion with its directed-cycle test and nothing more: each graph is walked through once, anew.
use crate::sheet::{Readings, Sheet, FRAGMENTS, LEAVES, TOP};

type Fragments = u64;

#[derive(Clone, Copy, PartialEq)]
enum Walk {
    Ahead,
    Under,
    Done,
}

struct Recursion<'a, R> {
    sheet: &'a Sheet,
    /// The places of each fragment's leaves.
    leaves: Vec<Vec<u8>>,
    /// The fragments that each leaf has an edge to.
    edges: Vec<Vec<u8>>,
    readings: &'a mut R,
}

/// What one walk over a graph's edges finds: the fragments below each.
struct Below {
    walk: [Walk; FRAGMENTS],
    fragments: [Fragments; FRAGMENTS],
}

impl<R: Readings> Recursion<'_, R> {
    /// From a fragment down. False where the way comes back to a fragment that it is under.
    fn descend(&self, below: &mut Below, fragment: usize) -> bool {
        below.walk[fragment] = Walk::Under;
        let mut found = 0;
        for &leaf in &self.leaves[fragment] {
            for &head in &self.edges[usize::from(leaf)] {
                let head = usize::from(head);
                let walk = below.walk[head];
                if walk == Walk::Under || walk == Walk::Ahead && !self.descend(below, head) {
                    return false;
                }
                found |= below.fragments[head] | 1 << head;
            }
        }
        below.fragments[fragment] = found;
        below.walk[fragment] = Walk::Done;
        true
    }

    /// The fragments below each; none where there is a directed cycle.
    fn below(&self) -> Option<[Fragments; FRAGMENTS]> {
        let mut below = Below { walk: [Walk::Ahead; FRAGMENTS], fragments: [0; FRAGMENTS] };
        for fragment in 0..self.leaves.len() {
            if below.walk[fragment] == Walk::Ahead && !self.descend(&mut below, fragment) {
                return None;
            }
        }
        Some(below.fragments)
    }

    fn enter(&mut self) {
        let Some(below) = self.below() else {
            return;
        };
        // The two lowest leaves with an edge to each fragment that is not redundant.
        let mut incoming = [[TOP; 2]; FRAGMENTS];
        for (leaf, heads) in self.edges.iter().enumerate() {
            let redundant = heads.iter().fold(0, |redundant, &head| redundant | below[usize::from(head)]);
            for &head in heads.iter().filter(|&&head| redundant >> head & 1 == 0) {
                match &mut incoming[usize::from(head)] {
                    [first, _] if *first == TOP => *first = leaf as u8,
                    [_, second] if *second == TOP => *second = leaf as u8,
                    _ => {}
                }
            }
        }
        let incoming = &incoming[..self.leaves.len()];
        let Some(&[a, b]) = incoming.iter().find(|[_, second]| *second != TOP) else {
            return self.readings.push(incoming.iter().map(|&[first, _]| first));
        };
        for (upper, lower) in [(a, b), (b, a)] {
            if self.readings.is_full() {
                return;
            }
            self.edges[usize::from(upper)].push(self.sheet.owner[usize::from(lower)]);
            self.enter();
            self.edges[usize::from(upper)].pop();
        }
    }
}

/// The readings in document 01's order.
pub fn list(sheet: &Sheet, readings: &mut impl Readings) {
    let mut leaves = vec![Vec::new(); sheet.roots.len()];
    for (leaf, &owner) in sheet.owner.iter().enumerate() {
        leaves[usize::from(owner)].push(leaf as u8);
    }
    let mut edges = vec![Vec::with_capacity(8); sheet.leaves.len().min(LEAVES)];
    for &(leaf, fragment) in &sheet.edges {
        edges[usize::from(leaf)].push(fragment);
    }
    Recursion { sheet, leaves, edges, readings }.enter();
}
