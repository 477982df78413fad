//! Whether a graph has a hypernormal cycle, by Section 7's graph A: one edge of A for each edge of the graph, and one for
//! each hypernormal bend. The first ones are a perfect matching, and an alternating cycle of it is a hypernormal cycle.
//!
//! There is no alternating cycle exactly when that matching is the only one, and a connected graph with only one perfect
//! matching has a bridge in it (Kotzig). So matched bridges are taken out, with both ends, as long as there are any.
use crate::graph::{Edge, Graph};

struct Auxiliary {
    /// The neighbours of each node. Nodes 2e and 2e + 1 are the ends of edge e.
    joined: Vec<Vec<usize>>,
    gone: Vec<bool>,
}

impl Auxiliary {
    fn new(graph: &Graph) -> Auxiliary {
        let tree: Vec<Edge> = graph.tree().collect();
        let edges: Vec<Edge> = tree.iter().chain(&graph.dominance).copied().collect();
        let is_tree = |edge: usize| edge < tree.len();
        // The ends at each node of the graph.
        let mut ends = vec![Vec::new(); graph.nodes()];
        let mut joined = vec![Vec::new(); 2 * edges.len()];
        for (edge, &(from, to)) in edges.iter().enumerate() {
            joined[2 * edge].push(2 * edge + 1);
            joined[2 * edge + 1].push(2 * edge);
            ends[from].push(2 * edge);
            ends[to].push(2 * edge + 1);
        }
        for (node, ends) in ends.iter().enumerate() {
            for (i, &end) in ends.iter().enumerate() {
                for &other in &ends[..i] {
                    if !graph.is_leaf(node) || is_tree(end / 2) || is_tree(other / 2) {
                        joined[end].push(other);
                        joined[other].push(end);
                    }
                }
            }
        }
        let gone = vec![false; joined.len()];
        Auxiliary { joined, gone }
    }

    /// The edges of the graph that are bridges of what is left.
    fn matched_bridges(&self) -> Vec<usize> {
        let mut search = Search { auxiliary: self, clock: 0, seen: vec![0; self.joined.len()], bridges: Vec::new() };
        for end in 0..self.joined.len() {
            if !self.gone[end] && search.seen[end] == 0 {
                search.visit(end, None);
            }
        }
        search.bridges
    }
}

/// A search in depth that numbers the nodes as they come.
struct Search<'a> {
    auxiliary: &'a Auxiliary,
    clock: usize,
    seen: Vec<usize>,
    bridges: Vec<usize>,
}

impl Search<'_> {
    /// The lowest number that is reached from the node and what comes after it, without the edge that led here.
    fn visit(&mut self, end: usize, from: Option<usize>) -> usize {
        self.clock += 1;
        let number = self.clock;
        self.seen[end] = number;
        let mut lowest = number;
        for &next in &self.auxiliary.joined[end] {
            if self.auxiliary.gone[next] || Some(next) == from {
                continue;
            }
            if self.seen[next] != 0 {
                lowest = lowest.min(self.seen[next]);
                continue;
            }
            let reached = self.visit(next, Some(end));
            lowest = lowest.min(reached);
            if reached > number && next / 2 == end / 2 {
                self.bridges.push(end / 2);
            }
        }
        lowest
    }
}

/// Whether the graph has a hypernormal cycle, which by Theorem 6.2 is when it has no solved form.
pub fn has_cycle(graph: &Graph) -> bool {
    let mut auxiliary = Auxiliary::new(graph);
    loop {
        let bridges = auxiliary.matched_bridges();
        if bridges.is_empty() {
            return auxiliary.gone.contains(&false);
        }
        for edge in bridges {
            auxiliary.gone[2 * edge] = true;
            auxiliary.gone[2 * edge + 1] = true;
        }
    }
}
