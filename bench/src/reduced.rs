//! Section 5's recursion on a graph that is kept reduced, as the paper's Section 8.1 has it: an edge more drops just the edges that it
//! makes redundant, and tells at once whether it closes a directed cycle.
use crate::sheet::{Readings, Sheet, FRAGMENTS, TOP};

type Leaves = u128;
type Fragments = u64;

/// A reduced graph without a directed cycle.
#[derive(Clone)]
struct Reduced {
    /// The leaves with an edge to each fragment that isn't redundant.
    incoming: [Leaves; FRAGMENTS],
    /// The leaves above each fragment.
    above: [Leaves; FRAGMENTS],
    /// The fragments above each, and below each, itself among them.
    rising: [Fragments; FRAGMENTS],
    falling: [Fragments; FRAGMENTS],
}

impl Reduced {
    fn without_edges() -> Reduced {
        let alone = std::array::from_fn(|fragment| 1 << fragment);
        Reduced { incoming: [0; FRAGMENTS], above: [0; FRAGMENTS], rising: alone, falling: alone }
    }

    /// Adds an edge from a leaf of `owner` to a fragment. False where it closes a directed cycle.
    fn add(&mut self, leaf: u8, owner: usize, fragment: usize) -> bool {
        let falling = self.falling[fragment];
        let rising = self.rising[owner];
        if falling & rising != 0 {
            return false;
        }
        let green = self.above[owner] | 1 << leaf;
        if self.above[fragment] >> leaf & 1 == 1 {
            return true;
        }
        let mut rest = falling;
        while rest != 0 {
            let lower = rest.trailing_zeros() as usize;
            rest &= rest - 1;
            self.incoming[lower] &= !green;
            self.above[lower] |= green;
            self.rising[lower] |= rising;
        }
        self.incoming[fragment] |= 1 << leaf;
        let mut rest = rising;
        while rest != 0 {
            let upper = rest.trailing_zeros() as usize;
            rest &= rest - 1;
            self.falling[upper] |= falling;
        }
        true
    }

    /// The two lowest leaves with an edge to the lowest fragment that has two.
    fn choice(&self, fragments: usize) -> Option<(u8, u8)> {
        let incoming = self.incoming[..fragments].iter().find(|&leaves| leaves & leaves.wrapping_sub(1) != 0)?;
        let others = incoming & (incoming - 1);
        Some((incoming.trailing_zeros() as u8, others.trailing_zeros() as u8))
    }
}

struct Recursion<'a, R> {
    owner: &'a [u8],
    fragments: usize,
    readings: &'a mut R,
}

impl<R: Readings> Recursion<'_, R> {
    fn enter(&mut self, graph: &mut Reduced) {
        let Some((a, b)) = graph.choice(self.fragments) else {
            let leaf = |leaves: &Leaves| if *leaves == 0 { TOP } else { leaves.trailing_zeros() as u8 };
            return self.readings.push(graph.incoming[..self.fragments].iter().map(leaf));
        };
        let (owner_a, owner_b) = (usize::from(self.owner[usize::from(a)]), usize::from(self.owner[usize::from(b)]));
        let mut half = graph.clone();
        if half.add(a, owner_a, owner_b) {
            self.enter(&mut half);
        }
        // The graph itself is not needed again, so the second half is made of it.
        if !self.readings.is_full() && graph.add(b, owner_b, owner_a) {
            self.enter(graph);
        }
    }
}

/// The readings in document 01's order.
pub fn list(sheet: &Sheet, readings: &mut impl Readings) {
    let mut graph = Reduced::without_edges();
    let owner = |leaf: u8| usize::from(sheet.owner[usize::from(leaf)]);
    if sheet.edges.iter().all(|&(leaf, root)| graph.add(leaf, owner(leaf), usize::from(root))) {
        Recursion { owner: &sheet.owner, fragments: sheet.roots.len(), readings }.enter(&mut graph);
    }
}
