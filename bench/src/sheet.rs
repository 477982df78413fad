//! A well-formed sheet as the other ways want it: fragments by ascending root, leaves by ascending number.
use differential::sheet;
use differential::Refused;

/// The most fragments and leaves that a sheet has.
pub const FRAGMENTS: usize = 64;
pub const LEAVES: usize = 127;

/// In a hanging: a fragment on top.
pub const TOP: u8 = 255;

/// What becomes of the readings.
pub trait Readings {
    /// One more reading: the leaf's place for each fragment, or top.
    fn push(&mut self, hanging: impl Iterator<Item = u8>);

    /// Whether no further one is wanted.
    fn is_full(&self) -> bool;
}

pub struct Sheet {
    pub nodes: usize,
    /// The root of each fragment.
    pub roots: Vec<u8>,
    /// The number of each leaf.
    pub leaves: Vec<u8>,
    /// The fragment of each leaf.
    pub owner: Vec<u8>,
    /// The dominance edges, by the places of leaf and fragment.
    pub edges: Vec<(u8, u8)>,
}

impl Sheet {
    pub fn read(bytes: &[u8]) -> Result<Sheet, Refused> {
        let graph = sheet::read(bytes)?;
        let (roots, leaves) = (graph.roots(), graph.leaves());
        let place = |nodes: &[usize], node: usize| nodes.binary_search(&node).unwrap_or_default() as u8;
        let owner = leaves.iter().map(|&leaf| place(&roots, graph.root_of(leaf))).collect();
        let edges = graph.dominance.iter().map(|&(leaf, root)| (place(&leaves, leaf), place(&roots, root))).collect();
        Ok(Sheet {
            nodes: graph.nodes(),
            owner,
            edges,
            roots: roots.iter().map(|&root| root as u8).collect(),
            leaves: leaves.iter().map(|&leaf| leaf as u8).collect(),
        })
    }
}
