//! Cycles to check: found by chance in the undirected graph, and changed ones.
use differential::graph::{Graph, Node};
use differential::random::Random;

/// An edge at a node: its kind and its other end.
type End = (u8, Node);

fn ends(graph: &Graph) -> Vec<Vec<End>> {
    let mut ends = vec![Vec::new(); graph.nodes()];
    let tree = graph.tree().map(|edge| (2, edge));
    for (kind, (from, to)) in tree.chain(graph.dominance.iter().map(|&edge| (3, edge))) {
        ends[from].push((kind, to));
        ends[to].push((kind, from));
    }
    ends
}

/// A walk that never takes the edge back by which it came, until it meets itself: the cycle it closes, if any.
pub fn found(random: &mut Random, graph: &Graph) -> Option<Vec<u8>> {
    let ends = ends(graph);
    let mut walk: Vec<End> = Vec::new();
    let mut at = random.below(graph.nodes());
    let mut came: Option<End> = None;
    loop {
        let onward: Vec<End> = ends[at].iter().copied().filter(|&end| Some(end) != came).collect();
        if onward.is_empty() {
            return None;
        }
        let (kind, next) = random.pick(&onward);
        walk.push((kind, at));
        if let Some(start) = walk.iter().position(|&(_, node)| node == next) {
            return Some(walk[start..].iter().flat_map(|&(kind, node)| [node as u8, kind]).collect());
        }
        came = Some((kind, at));
        at = next;
    }
}

/// The same cycle begun elsewhere, and perhaps the other way round.
pub fn turned(random: &mut Random, cycle: &[u8]) -> Vec<u8> {
    let mut pairs: Vec<[u8; 2]> = cycle.chunks_exact(2).map(|pair| [pair[0], pair[1]]).collect();
    if pairs.is_empty() {
        return Vec::new();
    }
    let by = random.below(pairs.len());
    pairs.rotate_left(by);
    if random.once_in(2) {
        let nodes: Vec<u8> = pairs.iter().map(|pair| pair[0]).rev().collect();
        let mut kinds: Vec<u8> = pairs.iter().map(|pair| pair[1]).rev().collect();
        // The kind written after a node belongs to the edge to the next one, which is now the one before.
        kinds.rotate_left(1);
        pairs = nodes.into_iter().zip(kinds).map(|(node, kind)| [node, kind]).collect();
    }
    pairs.concat()
}

/// The cycle with a byte changed, cut, doubled or lengthened.
pub fn changed(random: &mut Random, cycle: &[u8], nodes: usize) -> Vec<u8> {
    let mut bytes = cycle.to_vec();
    match random.below(6) {
        0 if !bytes.is_empty() => {
            let at = random.below(bytes.len());
            bytes[at] = random.byte();
        }
        1 if !bytes.is_empty() => {
            let at = random.below(bytes.len());
            bytes[at] = if at.is_multiple_of(2) { random.below(nodes) as u8 } else { bytes[at] ^ 1 };
        }
        2 => bytes.truncate(random.below(bytes.len() + 1)),
        3 => bytes.extend_from_within(..),
        4 => bytes.extend([random.byte(), 2]),
        _ => bytes.push(random.byte()),
    }
    bytes
}

/// Pairs by chance: nodes and kinds, most of them of the graph.
pub fn any(random: &mut Random, nodes: usize) -> Vec<u8> {
    (0..random.below(6)).flat_map(|_| [random.below(nodes + 1) as u8, random.between(1, 4) as u8]).collect()
}
