//! The readings in document 01's order, by Section 5's recursion.
use crate::graph::{Descent, Edge, Graph, Node};
use crate::placing::of_edges;

/// Rule 2: the dominance edges that aren't redundant. The graph is acyclic and an edge starts at a leaf, so another path from
/// there begins with another of its edges.
fn kept(edges: &[Edge], descent: &Descent) -> Vec<Edge> {
    let redundant = |&(leaf, root): &Edge| {
        edges.iter().any(|&(other_leaf, other)| other_leaf == leaf && other != root && descent.holds(other, root))
    };
    edges.iter().copied().filter(|edge| !redundant(edge)).collect()
}

/// Rule 3: the two lowest leaves with an edge to the lowest root that has two or more.
fn choice(nodes: usize, edges: &[Edge]) -> Option<(Node, Node)> {
    let mut leaves = vec![Vec::new(); nodes];
    for &(leaf, root) in edges {
        leaves[root].push(leaf);
    }
    let above = leaves.iter_mut().find(|above| above.len() >= 2)?;
    above.sort_unstable();
    Some((above[0], above[1]))
}

/// The edges with one more, which may have stood before.
fn with(edges: &[Edge], edge: Edge) -> Vec<Edge> {
    let mut more = edges.to_vec();
    if !more.contains(&edge) {
        more.push(edge);
    }
    more
}

/// Which graphs the recursion leaves at once.
#[derive(Clone, Copy, PartialEq, Eq)]
pub enum Leave {
    /// Section 5: those with a directed cycle.
    Cyclic,
    /// Section 8: those without a solved form, here by free fragments.
    Unsolvable,
}

/// The recursion ran out of graphs that it may look at.
#[derive(Debug, PartialEq, Eq)]
pub struct TooLong;

struct Recursion<'a> {
    graph: &'a Graph,
    leave: Leave,
    /// How many readings are wanted.
    wanted: usize,
    /// How many more graphs may be looked at.
    graphs: usize,
    found: Vec<Vec<u8>>,
}

impl Recursion<'_> {
    fn enter(&mut self, edges: &[Edge]) -> Result<(), TooLong> {
        if self.found.len() == self.wanted {
            return Ok(());
        }
        self.graphs = self.graphs.checked_sub(1).ok_or(TooLong)?;
        let descent = self.graph.descent(edges.iter().copied());
        if descent.is_cyclic() {
            return Ok(());
        }
        let edges = kept(edges, &descent);
        if self.leave == Leave::Unsolvable && !crate::fragments::solvable(self.graph, &edges) {
            return Ok(());
        }
        let Some((a, b)) = choice(self.graph.nodes(), &edges) else {
            self.found.push(of_edges(self.graph.nodes(), &edges));
            return Ok(());
        };
        self.enter(&with(&edges, (a, self.graph.root_of(b))))?;
        self.enter(&with(&edges, (b, self.graph.root_of(a))))
    }
}

/// The first readings, as many as wanted or as there are, if no more than so many graphs are looked at.
pub fn first(graph: &Graph, wanted: usize, leave: Leave, graphs: usize) -> Result<Vec<Vec<u8>>, TooLong> {
    let mut recursion = Recursion { graph, leave, wanted, graphs, found: Vec::new() };
    recursion.enter(&graph.dominance)?;
    Ok(recursion.found)
}

/// All readings, by the recursion as Section 5 has it.
pub fn all(graph: &Graph) -> Vec<Vec<u8>> {
    first(graph, usize::MAX, Leave::Cyclic, usize::MAX).unwrap_or_default()
}

/// The reading whose descent relation is contained in that of a solved form: there is exactly one, and it lies in the half
/// whose edge runs downward in the solved form.
pub fn below(graph: &Graph, solved: &Descent) -> Vec<u8> {
    let mut edges = graph.dominance.clone();
    loop {
        let descent = graph.descent(edges.iter().copied());
        edges = kept(&edges, &descent);
        let Some((a, b)) = choice(graph.nodes(), &edges) else {
            return of_edges(graph.nodes(), &edges);
        };
        let (upper, lower) = if solved.holds(a, graph.root_of(b)) { (a, b) } else { (b, a) };
        edges = with(&edges, (upper, graph.root_of(lower)));
    }
}
