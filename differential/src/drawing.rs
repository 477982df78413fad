//! Drawings of placings.
use crate::graph::{Graph, Node};
use crate::placing::{hung, TOP};

fn fragment(graph: &Graph, placing: &[u8], root: Node) -> String {
    let leaves: Vec<String> = graph.leaves_of(root).into_iter().map(|below| leaf(graph, placing, below)).collect();
    format!("{root}({})", leaves.join(","))
}

fn leaf(graph: &Graph, placing: &[u8], leaf: Node) -> String {
    let under = hung(placing).filter(|&(above, _)| above == leaf);
    let fragments: Vec<String> = under.map(|(_, root)| fragment(graph, placing, root)).collect();
    if fragments.is_empty() {
        leaf.to_string()
    } else {
        format!("{leaf}[{}]", fragments.join(";"))
    }
}

/// The drawing of a solved form.
pub fn drawing(graph: &Graph, placing: &[u8]) -> String {
    let top = graph.roots().into_iter().filter(|&root| placing[root] == TOP);
    let fragments: Vec<String> = top.map(|root| fragment(graph, placing, root)).collect();
    fragments.join(";")
}
