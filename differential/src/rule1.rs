//! The configuration handed out: Rule 1 from a reading.
use crate::graph::{Graph, Node};
use crate::placing::hung;

/// The edges from the top root down to the node.
fn depth(graph: &Graph, placing: &[u8], node: Node) -> usize {
    let above = match graph.parent[node] {
        Some(parent) => Some(parent),
        None => hung(placing).find(|&(_, root)| root == node).map(|(leaf, _)| leaf),
    };
    above.map_or(0, |above| 1 + depth(graph, placing, above))
}

/// The roots hung under the leaf, ascending.
fn carried(placing: &[u8], leaf: Node) -> Vec<Node> {
    hung(placing).filter(|&(under, _)| under == leaf).map(|(_, root)| root).collect()
}

/// The configuration that comes from a solved form.
pub fn configuration(graph: &Graph, solved: &[u8]) -> Vec<u8> {
    let mut placing = solved.to_vec();
    loop {
        let several = graph.leaves().into_iter().filter(|&leaf| carried(&placing, leaf).len() > 1);
        let Some(leaf) = several.min_by_key(|&leaf| (depth(graph, &placing, leaf), leaf)) else {
            return placing;
        };
        let roots = carried(&placing, leaf);
        let lowest = graph.leaves_of(roots[0])[0];
        for &root in &roots[1..] {
            placing[root] = lowest as u8;
        }
    }
}
