//! Placings: solved forms, configurations, readings.
use crate::graph::{Descent, Edge, Graph};
use crate::listing;

/// In a placing: a root on top, or a node that is no root.
pub const TOP: u8 = 255;

/// What the check of a placing says.
#[derive(Clone, Copy, Debug, Default, PartialEq, Eq)]
pub struct Answers {
    pub solved: bool,
    pub configuration: bool,
    pub reading: bool,
}

/// Whether the bytes are a placing of the graph: a leaf or top for each root, 255 for every other node.
pub fn is_placing(graph: &Graph, bytes: &[u8]) -> bool {
    let allowed = |node: usize, byte: u8| match byte {
        TOP => true,
        _ => graph.is_root(node) && usize::from(byte) < graph.nodes() && graph.is_leaf(usize::from(byte)),
    };
    bytes.len() == graph.nodes() && bytes.iter().enumerate().all(|(node, &byte)| allowed(node, byte))
}

/// An edge from each leaf to each root hung under it.
pub fn hung(placing: &[u8]) -> impl Iterator<Item = Edge> + '_ {
    placing.iter().enumerate().filter(|(_, &leaf)| leaf != TOP).map(|(root, &leaf)| (usize::from(leaf), root))
}

/// The placing in which each root hangs under the leaf of its edge.
pub fn of_edges(nodes: usize, edges: &[Edge]) -> Vec<u8> {
    let mut placing = vec![TOP; nodes];
    for &(leaf, root) in edges {
        placing[root] = leaf as u8;
    }
    placing
}

/// The descent relation of a solved form; none of another placing.
pub fn solved_form(graph: &Graph, placing: &[u8]) -> Option<Descent> {
    let descent = graph.descent(hung(placing));
    let sheet = graph.descent(graph.dominance.iter().copied());
    (!descent.is_cyclic() && descent.contains(&sheet)).then_some(descent)
}

/// Whether no leaf carries two roots.
pub fn is_matching(placing: &[u8]) -> bool {
    let mut leaves: Vec<usize> = hung(placing).map(|(leaf, _)| leaf).collect();
    leaves.sort_unstable();
    leaves.windows(2).all(|pair| pair[0] != pair[1])
}

/// The three answers on n bytes.
pub fn check(graph: &Graph, bytes: &[u8]) -> Answers {
    if !is_placing(graph, bytes) {
        return Answers::default();
    }
    let Some(descent) = solved_form(graph, bytes) else {
        return Answers::default();
    };
    let below = graph.descent(hung(&listing::below(graph, &descent)));
    Answers { solved: true, configuration: is_matching(bytes), reading: below == descent }
}
