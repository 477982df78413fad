//! Dominance graphs (Definition 4.1) and descent relations.

pub type Node = usize;
pub type Edge = (Node, Node);

/// The most nodes that a sheet has, added leaves counted: a set of nodes is one word.
pub const NODES: usize = 128;

/// A set of nodes.
pub type Set = u128;

/// The set's members, ascending.
pub fn members(set: Set) -> impl Iterator<Item = Node> {
    let mut rest = set;
    std::iter::from_fn(move || {
        let lowest = rest.trailing_zeros() as Node;
        rest &= rest.wrapping_sub(1);
        (lowest < NODES).then_some(lowest)
    })
}

/// A sheet's graph, as it is written or grown.
#[derive(Clone, Debug, PartialEq, Eq)]
pub struct Graph {
    /// The parent of each node; none of a root.
    pub parent: Vec<Option<Node>>,
    /// The dominance edges, leaf and root, ascending.
    pub dominance: Vec<Edge>,
}

impl Graph {
    pub fn nodes(&self) -> usize {
        self.parent.len()
    }

    pub fn is_root(&self, node: Node) -> bool {
        self.parent[node].is_none()
    }

    pub fn is_leaf(&self, node: Node) -> bool {
        !self.parent.contains(&Some(node))
    }

    pub fn roots(&self) -> Vec<Node> {
        (0..self.nodes()).filter(|&node| self.is_root(node)).collect()
    }

    pub fn leaves(&self) -> Vec<Node> {
        (0..self.nodes()).filter(|&node| self.is_leaf(node)).collect()
    }

    /// The nodes without a tree edge, ascending.
    pub fn bare_nodes(&self) -> Vec<Node> {
        self.roots().into_iter().filter(|&root| self.is_leaf(root)).collect()
    }

    /// With a leaf added to each node without a tree edge: numbered from the number of nodes upward, by ascending node.
    pub fn grown(mut self) -> Graph {
        let bare = self.bare_nodes();
        self.parent.extend(bare.into_iter().map(Some));
        self
    }

    /// The root of the node's fragment.
    pub fn root_of(&self, node: Node) -> Node {
        match self.parent[node] {
            None => node,
            Some(parent) => self.root_of(parent),
        }
    }

    /// The leaves of the root's fragment, ascending.
    pub fn leaves_of(&self, root: Node) -> Vec<Node> {
        self.leaves().into_iter().filter(|&leaf| self.root_of(leaf) == root).collect()
    }

    /// Tree edges, parent and child, by ascending child.
    pub fn tree(&self) -> impl Iterator<Item = Edge> + '_ {
        self.parent.iter().enumerate().filter_map(|(child, parent)| parent.map(|parent| (parent, child)))
    }

    /// The descent relation of the trees and further edges.
    pub fn descent(&self, edges: impl IntoIterator<Item = Edge>) -> Descent {
        let mut rows = vec![0; self.nodes()];
        for (from, to) in self.tree().chain(edges) {
            rows[from] |= 1 << to;
        }
        for middle in 0..rows.len() {
            let below = rows[middle];
            for row in rows.iter_mut() {
                if *row >> middle & 1 == 1 {
                    *row |= below;
                }
            }
        }
        Descent { rows }
    }
}

/// All pairs (u, v) with a path of one or more edges from u to v.
#[derive(Clone, Debug, PartialEq, Eq)]
pub struct Descent {
    rows: Vec<Set>,
}

impl Descent {
    pub fn holds(&self, upper: Node, lower: Node) -> bool {
        self.rows[upper] >> lower & 1 == 1
    }

    /// Whether some (u, u) is a pair.
    pub fn is_cyclic(&self) -> bool {
        (0..self.rows.len()).any(|node| self.holds(node, node))
    }

    pub fn contains(&self, other: &Descent) -> bool {
        self.rows.iter().zip(&other.rows).all(|(row, other)| other & !row == 0)
    }

    pub fn pairs(&self) -> u32 {
        self.rows.iter().map(|row| row.count_ones()).sum()
    }
}

#[cfg(test)]
mod tests {
    use super::*;

    #[test]
    fn members_ascend() {
        assert_eq!(members(0).count(), 0);
        assert_eq!(members(1 | 1 << 127 | 1 << 64).collect::<Vec<_>>(), [0, 64, 127]);
    }

    #[test]
    fn a_bare_node_grows_a_leaf() {
        let graph = Graph { parent: vec![None, None, Some(1), None], dominance: vec![(2, 0)] };
        assert_eq!(graph.bare_nodes(), [0, 3]);
        let grown = graph.grown();
        assert_eq!(grown.parent, [None, None, Some(1), None, Some(0), Some(3)]);
        assert_eq!((grown.leaves(), grown.bare_nodes()), (vec![2, 4, 5], vec![]));
        assert_eq!(grown.clone().grown(), grown);
    }

    #[test]
    fn descent_is_transitive() {
        let graph = Graph { parent: vec![None, Some(0), None, Some(2)], dominance: vec![(1, 2)] };
        let descent = graph.descent(graph.dominance.iter().copied());
        assert!(descent.holds(0, 3) && descent.holds(1, 3) && !descent.holds(2, 1));
        assert!(!descent.is_cyclic() && graph.descent([(1, 0)]).is_cyclic());
        assert_eq!(descent.pairs(), 6);
    }
}
