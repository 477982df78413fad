//! The sheets.
use crate::families::Family;
use differential::fragments;
use differential::graph::{Graph, Node};
use differential::random::Random;
use differential::sheet;
use differential::sheets::{chain, random_graph, renumbered, side_by_side};

pub struct Case {
    pub name: String,
    pub sheet: Vec<u8>,
}

fn graph(nodes: usize, tree: &[(Node, Node)], dominance: &[(Node, Node)]) -> Graph {
    let mut parent = vec![None; nodes];
    for &(above, child) in tree {
        parent[child] = Some(above);
    }
    Graph { parent, dominance: dominance.to_vec() }
}

fn chains() -> Vec<Case> {
    (3..=12).map(|length| Case { name: format!("chain of {length}"), sheet: chain(length) }).collect()
}

/// Sheets of all kinds with some hundreds or thousands of readings.
fn random_sheets() -> Vec<Case> {
    let mut random = Random::new(14);
    let mut cases = Vec::new();
    for (nodes, fewest, most) in
        [(24, 100, 500), (40, 500, 3000), (64, 1000, 9000), (100, 5000, 30_000), (128, 20_000, 65_535)]
    {
        let (graph, count) = loop {
            let graph = random_graph(&mut random, nodes);
            match fragments::count(&graph, 5000) {
                Some(count) if (fewest..=most).contains(&count) && 4 * graph.nodes() > 3 * nodes => {
                    break (graph, count)
                }
                _ => continue,
            }
        };
        let name = format!("random, {} nodes and {} edges, {count} readings", graph.nodes(), graph.dominance.len());
        cases.push(Case { name, sheet: sheet::tidy(&graph) });
    }
    cases
}

/// A fragment with two leaves above one root: no reading, and no directed cycle that shows it.
fn fork() -> Graph {
    graph(5, &[(0, 1), (0, 2), (3, 4)], &[(1, 3), (2, 3)])
}

/// The recursion finds the fork only when it has listed the chain, as often as the chain has readings.
pub fn beside_fork(length: usize) -> Graph {
    match sheet::read(&chain(length)) {
        Ok(chain) if length > 0 => side_by_side(&[chain, fork()]),
        _ => fork(),
    }
}

fn refused() -> Vec<Case> {
    let lengths = [0, 6, 8, 10, 12, 14];
    let name = |length| format!("refused, fork beside a chain of {length}");
    lengths.iter().map(|&length| Case { name: name(length), sheet: sheet::tidy(&beside_fork(length)) }).collect()
}

/// P with leaves p, p' and Q with leaf q, both above V and W: p and q above V, p' and q above W. There is one reading, Q on top;
/// the half with P above Q has no solved form, which only the choice at W shows.
fn gadget() -> Graph {
    let (p, q, v, w) = (0, 3, 5, 7);
    let tree = [(p, p + 1), (p, p + 2), (q, q + 1), (v, v + 1), (w, w + 1)];
    graph(9, &tree, &[(p + 1, v), (p + 2, w), (q + 1, v), (q + 1, w)])
}

/// So many of them, numbered so that all choices at a V come before all at a W: the recursion goes into both halves of each.
pub fn dying_halves(gadgets: usize) -> Graph {
    let whole = side_by_side(&(0..gadgets).map(|_| gadget()).collect::<Vec<Graph>>());
    let mut names = vec![0; whole.nodes()];
    let mut next = 0;
    for part in [5..7, 0..5, 7..9] {
        for gadget in 0..gadgets {
            for node in part.clone() {
                names[9 * gadget + node] = next;
                next += 1;
            }
        }
    }
    renumbered(&whole, &names)
}

fn halves() -> Vec<Case> {
    let case = |gadgets| Case {
        name: format!("halves that die, {gadgets} gadgets"),
        sheet: sheet::tidy(&dying_halves(gadgets)),
    };
    [2, 4, 6, 8, 10, 12, 14].into_iter().map(case).collect()
}

/// Nodes and edges of the families, one sheet each.
const FAMILIES: [(Family, usize, usize); 12] = [
    (Family::Dag, 64, 60),
    (Family::Dag, 64, 120),
    (Family::Dag, 128, 120),
    (Family::Dag, 128, 255),
    (Family::Band, 64, 60),
    (Family::Band, 128, 120),
    (Family::Bipartite, 64, 120),
    (Family::Bipartite, 128, 255),
    (Family::Forks, 64, 24),
    (Family::Forks, 64, 30),
    (Family::Forks, 128, 48),
    (Family::Forks, 128, 60),
];

/// The first that have all their edges and so many readings at least. Where the chart that counts them grows too large, it is taken
/// that there are more.
fn families(sizes: &[(Family, usize, usize)], fewest: u64) -> Vec<Case> {
    let case = |&(family, nodes, edges): &(Family, usize, usize)| {
        let mut random = Random::new(21);
        let graph = loop {
            let graph = family.graph(&mut random, nodes, edges);
            if graph.dominance.len() == edges && fragments::count(&graph, 5000).is_none_or(|count| count >= fewest) {
                break graph;
            }
        };
        Case { name: format!("{}, {nodes} nodes and {edges} edges", family.name()), sheet: sheet::tidy(&graph) }
    };
    sizes.iter().map(case).collect()
}

/// Those on which all ways come to an end soon.
fn quick() -> Vec<Case> {
    [chains(), random_sheets(), refused(), halves()].into_iter().flatten().collect()
}

pub fn all() -> Vec<Case> {
    quick().into_iter().chain(families(&FAMILIES, 5000)).collect()
}

#[cfg(test)]
mod tests {
    use crate::families::Family;
    use crate::{calls, lines, printed};

    const WAYS: [&str; 3] = ["recursion", "reduced", "free"];

    /// The families again, so small that all ways come to an end.
    const SMALL: [(Family, usize, usize); 4] =
        [(Family::Dag, 24, 20), (Family::Band, 28, 24), (Family::Bipartite, 24, 20), (Family::Forks, 40, 16)];

    /// Text, placings and counts are the same.
    #[test]
    fn the_ways_agree() {
        for case in super::quick().into_iter().chain(super::families(&SMALL, 100)) {
            let [recursion, reduced, free] = WAYS.map(|way| printed(way, &case.sheet).unwrap());
            assert_eq!(lines::compare(&[&recursion, &reduced], Some(&free)), Ok(()), "{}", case.name);
            calls::agree(&case, [true; 4]).unwrap();
        }
    }

    #[test]
    fn the_families_are_as_large_as_they_say() {
        for (case, (_, nodes, edges)) in super::families(&super::FAMILIES, 5000).iter().zip(super::FAMILIES) {
            let graph = differential::sheet::read(&case.sheet).unwrap();
            assert_eq!((graph.nodes(), graph.dominance.len()), (nodes, edges), "{}", case.name);
        }
    }

    #[test]
    fn refused_sheets_are_refused_alike() {
        for (bytes, text) in
            [(&[][..], "refused 1\n"), (&[5], "refused 2\n"), (&[1, 2, 2, 0, 1, 3, 1, 0, 0], "refused 9\n")]
        {
            for way in WAYS {
                assert_eq!(printed(way, bytes).unwrap(), text.as_bytes());
            }
        }
    }
}
