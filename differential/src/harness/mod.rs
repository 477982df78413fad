//! Every call of the library, held against the implementation of documents 01 and 02 in this package.
mod calls;
mod checks;
mod cycles;
mod damage;
pub mod deep;
pub mod difference;
mod known;
mod lent;
mod mislabelled;
mod put;
mod raw;
mod tally;
mod terms;
mod trial;

pub use difference::Difference;
pub use tally::Tally;
pub use trial::{try_any, try_damaged, try_mislabelled};

use differential::graph::Graph;
use differential::random::Random;
use differential::sheet;
use differential::sheets::{
    bared, chain, crowded_graph, near_overgrown, random_fork, random_graph, repeating, shuffled, side_by_side, untidy,
    WIDE,
};

/// A graph without bare nodes.
fn random_fragments(random: &mut Random, index: u64) -> Graph {
    match index % 10 {
        0..=3 => random_graph(random, 9),
        4..=6 => random_graph(random, 40),
        7 if random.once_in(4) => crowded_graph(random),
        7 => random_graph(random, 128),
        8 => {
            let parts = [random_graph(random, 20), random_graph(random, 40), random_graph(random, 9)];
            let graph = side_by_side(&parts);
            shuffled(random, &graph)
        }
        _ if random.once_in(2) => {
            let fragments = random.between(1, 6);
            random_fork(random, fragments)
        }
        _ => match sheet::read(&chain(random.between(1, 9))) {
            Ok(graph) => shuffled(random, &graph),
            Err(_) => random_graph(random, 128),
        },
    }
}

/// Random sheet number `index`, which the seed fixes.
pub fn random_sheet(random: &mut Random, index: u64) -> Vec<u8> {
    let graph = match random.below(24) {
        0 => near_overgrown(random, &WIDE),
        kind => {
            let graph = random_fragments(random, index);
            if kind < 12 {
                bared(random, &graph)
            } else {
                graph
            }
        }
    };
    let bytes = if random.once_in(4) { sheet::tidy(&graph) } else { untidy(random, &graph) };
    match random.below(8) {
        0..=2 => {
            let times = random.between(1, 8);
            repeating(random, &bytes, times)
        }
        // As long as a sheet may be.
        3 => repeating(random, &bytes, (sheet::LONGEST - bytes.len()) / 3),
        _ => bytes,
    }
}

#[cfg(test)]
mod tests {
    use super::*;
    use differential::sheet::{DOMINANCE, TREE};

    fn edges(bytes: &[u8], kind: u8) -> impl Iterator<Item = (u8, u8)> + '_ {
        let commands = bytes[2..].chunks_exact(3).filter(move |command| command[0] == kind);
        commands.map(|command| (command[1], command[2]))
    }

    fn is_bare(bytes: &[u8], node: u8) -> bool {
        edges(bytes, TREE).all(|(parent, child)| parent != node && child != node)
    }

    /// Whether no tree edge is wrong by itself: then a 4 is for a cycle.
    fn one_parent_each(bytes: &[u8]) -> bool {
        let mut children: Vec<u8> = edges(bytes, TREE).map(|(_, child)| child).collect();
        children.sort_unstable();
        children.windows(2).all(|pair| pair[0] != pair[1]) && edges(bytes, TREE).all(|(parent, child)| parent != child)
    }

    fn grown(bytes: &[u8]) -> usize {
        usize::from(bytes[1]) + (0..bytes[1]).filter(|&node| is_bare(bytes, node)).count()
    }

    /// A run has enough sheets of each kind that document 02, Two, speaks of, and of damaged ones.
    #[test]
    fn bare_nodes_occur() {
        let [mut one_node, mut growing, mut full, mut overgrown] = [0; 4];
        let [mut from_bare, mut overgrown_from_bare, mut overgrown_cycle] = [0; 3];
        for index in 0..2500 {
            let mut random = crate::random_of(1, index);
            let bytes = random_sheet(&mut random, index);
            let grows = usize::from(bytes[1]) < grown(&bytes);
            match sheet::read(&bytes) {
                Ok(_) => {
                    one_node += usize::from(bytes[1] == 1);
                    growing += usize::from(grows);
                    full += usize::from(grows && grown(&bytes) == 128);
                }
                Err(number) => overgrown += usize::from(number == 13),
            }
            for _ in 0..4 {
                let bytes = damage::damaged(&mut random, &bytes);
                let starts_bare = || edges(&bytes, DOMINANCE).any(|(leaf, _)| is_bare(&bytes, leaf));
                match sheet::read(&bytes) {
                    Err(6) => from_bare += usize::from(starts_bare()),
                    Err(13) => overgrown_from_bare += usize::from(starts_bare()),
                    Err(4) => overgrown_cycle += usize::from(grown(&bytes) > 128 && one_parent_each(&bytes)),
                    _ => {}
                }
            }
        }
        let seen = [one_node, growing, full, overgrown, from_bare, overgrown_from_bare, overgrown_cycle];
        let enough = [10, 500, 20, 20, 100, 10, 3];
        assert!(seen.iter().zip(enough).all(|(&seen, enough)| seen >= enough), "{seen:?}");
    }
}
