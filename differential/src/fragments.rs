//! Solvability and the number of readings by free fragments, without Rules 2 and 3.
//!
//! A fragment of a connected graph can stand on top exactly when no dominance edge leads to it and no two of its leaves are
//! connected once it is taken away. Each part that is left hangs under the leaf that it is connected with.
use crate::graph::{Edge, Graph};
use std::collections::HashMap;

/// A set of fragments, by their places in the list of roots: there are 64 at most.
type Part = u64;

struct Fragments {
    /// For each fragment and each of its leaves, the fragments that the leaf's edges lead to.
    under: Vec<Vec<Part>>,
    /// For each fragment the fragments with an edge to it.
    above: Vec<Part>,
    /// For each fragment those that an edge joins it with.
    joined: Vec<Part>,
}

fn members(part: Part) -> impl Iterator<Item = usize> {
    (0..64).filter(move |&fragment| part >> fragment & 1 == 1)
}

impl Fragments {
    fn new(graph: &Graph, dominance: &[Edge]) -> Fragments {
        let roots = graph.roots();
        let place = |node| roots.binary_search(&graph.root_of(node)).unwrap_or_default();
        let mut under: Vec<Vec<Part>> = vec![Vec::new(); roots.len()];
        let mut above = vec![0; roots.len()];
        let mut joined = vec![0; roots.len()];
        let mut sorted = dominance.to_vec();
        sorted.sort_unstable();
        let mut last_leaf = None;
        for &(leaf, root) in &sorted {
            let (upper, lower) = (place(leaf), place(root));
            if last_leaf != Some(leaf) {
                under[upper].push(0);
                last_leaf = Some(leaf);
            }
            if let Some(part) = under[upper].last_mut() {
                *part |= 1 << lower;
            }
            above[lower] |= 1 << upper;
            joined[upper] |= 1 << lower;
            joined[lower] |= 1 << upper;
        }
        Fragments { under, above, joined }
    }

    fn whole(&self) -> Part {
        (0..self.above.len()).fold(0, |part, fragment| part | 1 << fragment)
    }

    /// The connected part of `part` that has its lowest fragment.
    fn first_component(&self, part: Part) -> Part {
        let mut found: Part = part & part.wrapping_neg();
        loop {
            let more = members(found).fold(found, |more, fragment| more | self.joined[fragment] & part);
            if more == found {
                return found;
            }
            found = more;
        }
    }

    fn components(&self, part: Part) -> Vec<Part> {
        let mut rest = part;
        let mut components = Vec::new();
        while rest != 0 {
            components.push(self.first_component(rest));
            rest &= !components[components.len() - 1];
        }
        components
    }

    /// What is left of a connected part when a fragment is taken out that can stand on top.
    fn without(&self, part: Part, top: usize) -> Option<Vec<Part>> {
        if self.above[top] & part != 0 {
            return None;
        }
        let components = self.components(part & !(1 << top));
        let leaves = |component: &Part| self.under[top].iter().filter(|&under| under & component != 0).count();
        components.iter().all(|component| leaves(component) == 1).then_some(components)
    }

    /// Whether a connected part has a solved form. A solved form of the whole has one of each part within it, so any fragment
    /// that can stand on top will do.
    fn part_solvable(&self, part: Part) -> bool {
        members(part)
            .find_map(|top| self.without(part, top))
            .is_some_and(|components| components.into_iter().all(|component| self.part_solvable(component)))
    }
}

/// Whether the graph with these dominance edges has a solved form.
pub fn solvable(graph: &Graph, dominance: &[Edge]) -> bool {
    let fragments = Fragments::new(graph, dominance);
    fragments.components(fragments.whole()).into_iter().all(|part| fragments.part_solvable(part))
}

struct Chart<'a> {
    fragments: &'a Fragments,
    counts: HashMap<Part, u64>,
    /// How many more parts may be looked at.
    parts: usize,
}

impl Chart<'_> {
    fn product(&mut self, parts: Vec<Part>) -> Option<u64> {
        parts.into_iter().try_fold(1, |product: u64, part| Some(product.saturating_mul(self.count(part)?)))
    }

    fn count(&mut self, part: Part) -> Option<u64> {
        if let Some(&count) = self.counts.get(&part) {
            return Some(count);
        }
        self.parts = self.parts.checked_sub(1)?;
        let mut count: u64 = 0;
        for top in members(part) {
            if let Some(components) = self.fragments.without(part, top) {
                count = count.saturating_add(self.product(components)?);
            }
        }
        self.counts.insert(part, count);
        Some(count)
    }
}

/// How many readings there are, if no more than so many parts are looked at. In a solved form a connected part has one
/// fragment on top, and two that differ there are in no way comparable: so the readings are counted top by top.
pub fn count(graph: &Graph, parts: usize) -> Option<u64> {
    let fragments = Fragments::new(graph, &graph.dominance);
    let whole = fragments.components(fragments.whole());
    Chart { fragments: &fragments, counts: HashMap::new(), parts }.product(whole)
}
