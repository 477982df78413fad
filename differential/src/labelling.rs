//! Labelled sheets to try: random graphs whose nodes have three children at most, and labels that fit.
use crate::graph::{Graph, Node};
use crate::labelled::{DIFFER, LABEL};
use crate::random::Random;
use crate::sheet::{self, DOMINANCE, LONGEST};
use crate::sheets::{bared, crowded_graph_of, graph_of, near_overgrown, Trees};

/// A labelled sheet, with its commands between the first and the end.
#[derive(Clone)]
pub struct Labelled {
    pub nodes: usize,
    pub commands: Vec<Vec<u8>>,
}

impl Labelled {
    pub fn bytes(&self) -> Vec<u8> {
        let mut bytes = sheet::write(self.nodes, &[], &[]);
        bytes.splice(2..2, self.commands.concat());
        bytes
    }

    /// Puts a command anywhere.
    pub fn insert(&mut self, random: &mut Random, command: &[u8]) {
        self.commands.insert(random.below(self.commands.len() + 1), command.to_vec());
    }

    /// Where one of these commands stands, if there are any.
    pub fn find(&self, random: &mut Random, is_meant: impl Fn(&[u8]) -> bool) -> Option<usize> {
        let found: Vec<usize> = (0..self.commands.len()).filter(|&at| is_meant(&self.commands[at])).collect();
        (!found.is_empty()).then(|| random.pick(&found))
    }

    /// Says so often that the labelled nodes differ that the sheet has this length, if it is not longer already.
    pub fn lengthen(&mut self, random: &mut Random, length: usize) {
        for _ in self.bytes().len()..length {
            self.insert(random, &[DIFFER]);
        }
    }
}

/// A symbol that takes so many children, often the first or the last that does.
pub fn symbol(random: &mut Random, children: usize) -> u8 {
    let any = random.below(64);
    (64 * children + random.pick(&[0, any, 63])) as u8
}

/// The same, but not so often that most nodes of a large sheet share theirs, since it is hard to tell then which of them stands
/// where in a term.
pub fn symbol_apart(random: &mut Random, children: usize) -> u8 {
    let any = random.below(64);
    (64 * children + random.pick(&[0, any, any, any, 63])) as u8
}

/// A label for each node that has children or no tree edge, and for some leaves that start no dominance edge; the others are holes.
fn labels(random: &mut Random, graph: &Graph, symbol: fn(&mut Random, usize) -> u8) -> Vec<(Node, u8)> {
    let mut labels = Vec::new();
    for node in 0..graph.nodes() {
        let children = graph.tree().filter(|&(parent, _)| parent == node).count();
        let starts_none = graph.dominance.iter().all(|&(leaf, _)| leaf != node);
        if children > 0 || graph.is_root(node) || starts_none && random.once_in(2) {
            labels.push((node, symbol(random, children)));
        }
    }
    labels
}

/// The graph with labels, its commands in random order. Some dominance edges are repeated, and so is that labelled nodes differ.
pub fn with_labels(random: &mut Random, graph: &Graph, symbol: fn(&mut Random, usize) -> u8) -> Labelled {
    let edges = sheet::tidy(graph);
    let mut commands: Vec<Vec<u8>> = edges[2..].chunks_exact(3).map(<[u8]>::to_vec).collect();
    let labels = labels(random, graph, symbol);
    commands.extend(labels.iter().map(|&(node, symbol)| vec![LABEL, node as u8, symbol]));
    let differ = usize::from(labels.len() > 1) + random.pick(&[0, 0, 0, 1, 5]);
    commands.extend(vec![vec![DIFFER]; differ]);
    random.shuffle(&mut commands);
    let mut sheet = Labelled { nodes: graph.nodes(), commands };
    for _ in 0..random.pick(&[0, 0, 1, 8]) {
        if let Some(at) = sheet.find(random, |command| command[0] == DOMINANCE) {
            let edge = sheet.commands[at].clone();
            sheet.insert(random, &edge);
        }
    }
    sheet
}

/// A random labelled sheet, which is accepted but where it is overgrown.
pub fn random_labelled(random: &mut Random) -> Labelled {
    const NARROW: [Trees; 1] = [Trees::Narrow];
    let graph = match random.below(24) {
        0 => near_overgrown(random, &NARROW),
        1 => crowded_graph_of(random, Trees::Narrow),
        kind => {
            let most_nodes = random.pick(&[4, 9, 9, 40, 40, 128]);
            let graph = graph_of(random, most_nodes, &NARROW);
            if kind < 12 {
                bared(random, &graph)
            } else {
                graph
            }
        }
    };
    let mut sheet = with_labels(random, &graph, symbol);
    // As long as a sheet may be.
    if random.once_in(8) {
        sheet.lengthen(random, LONGEST);
    }
    sheet
}
