//! Labelled sheets (document 02, Three): normal dominance constraints, and the graph that each of them means.
use crate::graph::{Graph, Node};
use crate::sheet::{byte, commands};
use crate::Refused;

pub const LABEL: u8 = 5;
pub const DIFFER: u8 = 6;

/// How many children a symbol takes.
pub fn arity(symbol: u8) -> usize {
    match symbol {
        0..=63 => 0,
        64..=127 => 1,
        128..=191 => 2,
        192..=255 => 3,
    }
}

/// A normal dominance constraint.
#[derive(Clone, Debug, PartialEq, Eq)]
pub struct Constraint {
    /// Its graph, as it is written.
    pub graph: Graph,
    /// The symbol of each node; none of a hole.
    pub symbols: Vec<Option<u8>>,
    /// The children of each node, in the order of their commands.
    pub children: Vec<Vec<Node>>,
    /// Whether all labelled nodes differ.
    pub differ: bool,
}

/// What a labelled sheet says besides nodes and edges.
struct Labels {
    given: Vec<(Node, u8)>,
    differ: bool,
}

impl Labels {
    /// A command that a plain sheet does not have.
    fn add(&mut self, command: u8, nodes: usize, rest: &mut &[u8]) -> Result<(), Refused> {
        match command {
            LABEL => {
                let node = usize::from(byte(rest)?);
                let symbol = byte(rest)?;
                if node >= nodes {
                    return Err(3);
                }
                self.given.push((node, symbol));
            }
            DIFFER => self.differ = true,
            _ => return Err(2),
        }
        Ok(())
    }

    fn symbols_of(&self, node: Node) -> Vec<u8> {
        self.given.iter().filter(|label| label.0 == node).map(|label| label.1).collect()
    }

    fn is_labelled(&self, node: Node) -> bool {
        !self.symbols_of(node).is_empty()
    }

    /// Whether the node has one symbol, and as many children as that takes; or no symbol, and no child.
    fn fits(&self, graph: &Graph, node: Node) -> bool {
        let children = graph.tree().filter(|&(parent, _)| parent == node).count();
        match self.symbols_of(node)[..] {
            [] => children == 0,
            [symbol] => children == arity(symbol),
            _ => false,
        }
    }

    /// The tests after a plain sheet's own, in the document's order.
    fn judge(&self, graph: &Graph) -> Result<(), Refused> {
        let nodes: Vec<Node> = (0..graph.nodes()).collect();
        if !nodes.iter().all(|&node| self.fits(graph, node)) {
            return Err(14);
        }
        if !self.differ && nodes.iter().filter(|&&node| self.is_labelled(node)).count() > 1 {
            return Err(15);
        }
        let from_labelled = graph.dominance.iter().any(|&(leaf, _)| self.is_labelled(leaf));
        if from_labelled || graph.bare_nodes().iter().any(|&node| !self.is_labelled(node)) {
            return Err(16);
        }
        Ok(())
    }
}

/// The constraint of an accepted labelled sheet; else its refusal.
pub fn read(bytes: &[u8]) -> Result<Constraint, Refused> {
    let mut labels = Labels { given: Vec::new(), differ: false };
    let commands = commands(bytes, |command, nodes, rest| labels.add(command, nodes, rest))?;
    let tree = commands.tree.clone();
    let graph = commands.graph()?;
    labels.judge(&graph)?;
    let mut children = vec![Vec::new(); graph.nodes()];
    for (parent, child) in tree {
        children[parent].push(child);
    }
    let symbols = (0..graph.nodes()).map(|node| labels.symbols_of(node).first().copied()).collect();
    Ok(Constraint { graph, symbols, children, differ: labels.differ })
}

/// The graph as an accepted labelled sheet writes it; else its refusal.
pub fn written(bytes: &[u8]) -> Result<Graph, Refused> {
    read(bytes).map(|constraint| constraint.graph)
}
