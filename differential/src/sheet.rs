//! Sheets: reading them with their refusals, writing them, the tidy form, the table of fragments.
use crate::graph::{Edge, Graph, Node, NODES};
use crate::Refused;
use std::collections::BTreeSet;

const END: u8 = 0;
const COUNT: u8 = 1;
pub const TREE: u8 = 2;
pub const DOMINANCE: u8 = 3;

const MOST_DOMINANCE: usize = 255;

/// The most bytes of a sheet (document 02, One).
pub const LONGEST: usize = 2048;

/// What is known after some commands.
pub(crate) struct Commands {
    parent: Vec<Option<Node>>,
    /// The tree edges in the order of their commands.
    pub(crate) tree: Vec<Edge>,
    dominance: BTreeSet<Edge>,
}

/// The next byte, or 1.
pub(crate) fn byte(rest: &mut &[u8]) -> Result<u8, Refused> {
    let (&first, after) = rest.split_first().ok_or(1)?;
    *rest = after;
    Ok(first)
}

impl Commands {
    /// The two operands of an edge: 1 if one is missing, 3 if one is no node.
    fn edge(&self, rest: &mut &[u8]) -> Result<Edge, Refused> {
        let from = usize::from(byte(rest)?);
        let to = usize::from(byte(rest)?);
        if from >= self.parent.len() || to >= self.parent.len() {
            return Err(3);
        }
        Ok((from, to))
    }

    fn add_tree(&mut self, (parent, child): Edge) -> Result<(), Refused> {
        if parent == child || self.parent[child].is_some() {
            return Err(4);
        }
        self.parent[child] = Some(parent);
        self.tree.push((parent, child));
        Ok(())
    }

    /// 8 counts different edges; a repeat is read as a single edge.
    fn add_dominance(&mut self, edge: Edge) -> Result<(), Refused> {
        self.dominance.insert(edge);
        if self.dominance.len() > MOST_DOMINANCE {
            return Err(8);
        }
        Ok(())
    }

    /// Whether rising from the node comes to no end.
    fn rises_forever(&self, node: Node) -> bool {
        let mut at = node;
        for _ in 0..=self.parent.len() {
            match self.parent[at] {
                None => return false,
                Some(parent) => at = parent,
            }
        }
        true
    }

    /// The tests of the whole, in the documents' order: a node without tree edges is no leaf, since it grows one.
    pub(crate) fn graph(self) -> Result<Graph, Refused> {
        if (0..self.parent.len()).any(|node| self.rises_forever(node)) {
            return Err(4);
        }
        let written = Graph { parent: self.parent, dominance: self.dominance.into_iter().collect() };
        let grown = written.clone().grown();
        if grown.nodes() > NODES {
            return Err(13);
        }
        if grown.dominance.iter().any(|&(leaf, root)| !grown.is_leaf(leaf) || !grown.is_root(root)) {
            return Err(6);
        }
        Ok(written)
    }
}

/// The graph of a well-formed sheet, grown (document 02, Two); else its refusal.
pub fn read(bytes: &[u8]) -> Result<Graph, Refused> {
    written(bytes).map(Graph::grown)
}

/// The graph as a well-formed sheet writes it; else its refusal.
pub fn written(bytes: &[u8]) -> Result<Graph, Refused> {
    commands(bytes, |_, _, _| Err(2))?.graph()
}

/// What the commands come to, or the refusal of one of them; 12 before the others. A command byte that has no place here goes to
/// `other`, with the number of nodes and the bytes after it.
pub(crate) fn commands(
    bytes: &[u8],
    mut other: impl FnMut(u8, usize, &mut &[u8]) -> Result<(), Refused>,
) -> Result<Commands, Refused> {
    if bytes.len() > LONGEST {
        return Err(12);
    }
    let mut rest = bytes;
    if byte(&mut rest)? != COUNT {
        return Err(2);
    }
    let nodes = usize::from(byte(&mut rest)?);
    if !(1..=NODES).contains(&nodes) {
        return Err(3);
    }
    let mut commands = Commands { parent: vec![None; nodes], tree: Vec::new(), dominance: BTreeSet::new() };
    loop {
        match byte(&mut rest)? {
            END if rest.is_empty() => return Ok(commands),
            TREE => {
                let edge = commands.edge(&mut rest)?;
                commands.add_tree(edge)?;
            }
            DOMINANCE => {
                let edge = commands.edge(&mut rest)?;
                commands.add_dominance(edge)?;
            }
            command => other(command, nodes, &mut rest)?,
        }
    }
}

/// The sheet with these commands in this order.
pub fn write(nodes: usize, tree: &[Edge], dominance: &[Edge]) -> Vec<u8> {
    let mut bytes = vec![COUNT, nodes as u8];
    for (kind, edges) in [(TREE, tree), (DOMINANCE, dominance)] {
        for &(from, to) in edges {
            bytes.extend([kind, from as u8, to as u8]);
        }
    }
    bytes.push(END);
    bytes
}

/// The tidy sheet of what is written: tree edges by child, then dominance edges by leaf and root.
pub fn tidy(written: &Graph) -> Vec<u8> {
    let tree: Vec<Edge> = written.tree().collect();
    write(written.nodes(), &tree, &written.dominance)
}

/// Root, lowest leaf and number of leaves of each fragment of a grown graph, by ascending root.
pub fn table(graph: &Graph) -> Vec<[u8; 3]> {
    let record = |root| {
        let leaves = graph.leaves_of(root);
        [root as u8, leaves[0] as u8, leaves.len() as u8]
    };
    graph.roots().into_iter().map(record).collect()
}
