//! The check of a cycle: c pairs, node and kind of the edge to the next, 2 for tree and 3 for dominance.
use crate::graph::{Graph, Node};

const TREE: u8 = 2;
const DOMINANCE: u8 = 3;

/// Whether an edge of this kind joins the two nodes, one way or the other.
fn joined(graph: &Graph, kind: u8, one: Node, other: Node) -> bool {
    match kind {
        TREE => graph.parent[one] == Some(other) || graph.parent[other] == Some(one),
        DOMINANCE => graph.dominance.contains(&(one, other)) || graph.dominance.contains(&(other, one)),
        _ => false,
    }
}

/// Whether the bytes spell a simple hypernormal cycle.
pub fn check(graph: &Graph, bytes: &[u8]) -> bool {
    let pairs: Vec<(Node, u8)> = bytes.chunks_exact(2).map(|pair| (usize::from(pair[0]), pair[1])).collect();
    let all_nodes = pairs.iter().all(|&(node, _)| node < graph.nodes());
    let all_different = (0..pairs.len()).all(|i| pairs[..i].iter().all(|&(node, _)| node != pairs[i].0));
    if !bytes.len().is_multiple_of(2) || pairs.len() < 2 || !all_nodes || !all_different {
        return false;
    }
    let around = |i: usize| (pairs[i], pairs[(i + 1) % pairs.len()]);
    let all_joined = (0..pairs.len()).all(|i| {
        let ((node, kind), (next, _)) = around(i);
        joined(graph, kind, node, next)
    });
    // With three nodes or more, edges between different nodes are different.
    let edges_different = pairs.len() > 2 || pairs[0].1 != pairs[1].1;
    let hypernormal = (0..pairs.len()).all(|i| {
        let ((_, kind), (next, next_kind)) = around(i);
        !(graph.is_leaf(next) && kind == DOMINANCE && next_kind == DOMINANCE)
    });
    all_joined && edges_different && hypernormal
}
