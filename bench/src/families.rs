//! Random sheets with many dominance edges, and as a rule with more readings than are listed.
use differential::fragments;
use differential::graph::{Edge, Graph, Node};
use differential::random::Random;

/// Which fragments an edge joins, of fragments that stand in a random order.
#[derive(Clone, Copy)]
pub enum Family {
    /// An earlier one and a later one.
    Dag,
    /// One and one of the next six.
    Band,
    /// One of the first half and one of the other.
    Bipartite,
    /// One with several leaves, and any other.
    Forks,
}

/// How often an edge is looked for before there are fewer of them than wanted.
const TRIES: usize = 100;

impl Family {
    pub fn name(self) -> &'static str {
        match self {
            Family::Dag => "dag",
            Family::Band => "band",
            Family::Bipartite => "bipartite",
            Family::Forks => "forks",
        }
    }

    /// The places of an upper and a lower fragment, which may be the same or beyond the last. Those with several leaves are the
    /// first `uppers` of the forks.
    fn pair(self, random: &mut Random, fragments: usize, uppers: usize) -> (usize, usize) {
        match self {
            Family::Dag => {
                let (one, other) = (random.below(fragments), random.below(fragments));
                (one.min(other), one.max(other))
            }
            Family::Band => {
                let upper = random.below(fragments);
                (upper, upper + random.between(1, 6))
            }
            Family::Bipartite => (random.below(fragments / 2), random.between(fragments / 2, fragments - 1)),
            Family::Forks => (random.below(uppers), random.below(fragments)),
        }
    }

    /// Adds dominance edges to two fragments or more until there are as many as wanted, or no more are found that keep the graph
    /// solvable.
    pub fn join(self, random: &mut Random, graph: &mut Graph, wanted: usize) {
        let mut order = graph.roots();
        random.shuffle(&mut order);
        if let Family::Forks = self {
            order.sort_by_key(|&root| graph.leaves_of(root).len() == 1);
        }
        let leaves: Vec<Vec<Node>> = order.iter().map(|&root| graph.leaves_of(root)).collect();
        let uppers = leaves.iter().filter(|leaves| leaves.len() > 1).count().max(1);
        for _ in 0..TRIES * wanted {
            if graph.dominance.len() == wanted {
                return;
            }
            let (upper, lower) = self.pair(random, order.len(), uppers);
            if upper != lower && lower < order.len() {
                add(graph, (random.pick(&leaves[upper]), order[lower]));
            }
        }
    }

    /// So many edges between fragments of a root and a leaf. Of the forks, three of sixteen nodes are roots with two leaves.
    pub fn graph(self, random: &mut Random, nodes: usize, edges: usize) -> Graph {
        let forks = if let Family::Forks = self { nodes * 3 / 16 } else { 0 };
        let mut graph = Graph { parent: Vec::with_capacity(nodes), dominance: Vec::with_capacity(edges) };
        while graph.nodes() + 1 < nodes {
            let root = graph.nodes();
            let leaves = if root < 3 * forks { 2 } else { 1 };
            graph.parent.push(None);
            graph.parent.extend(vec![Some(root); leaves]);
        }
        self.join(random, &mut graph, edges);
        graph
    }
}

/// Adds an edge if it isn't there already and the graph stays solvable.
fn add(graph: &mut Graph, edge: Edge) {
    if let Err(at) = graph.dominance.binary_search(&edge) {
        graph.dominance.insert(at, edge);
        if !fragments::solvable(graph, &graph.dominance) {
            graph.dominance.remove(at);
        }
    }
}
