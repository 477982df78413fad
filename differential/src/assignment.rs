//! The search for an assignment under which a tree satisfies a constraint. It knows nothing of how the tree was built.
//!
//! A labelling literal leads from a node to its children. So the position of its root is that of a whole fragment, and there is
//! a way to put the fragment wherever the symbols fit. Ways that the others rule out go at once, so few are tried in vain.
use crate::graph::Node;
use crate::labelled::Constraint;
use crate::matching::each_its_own;
use crate::tree::{Position, Tree};

/// The search was to try more ways than it may.
#[derive(Debug, PartialEq, Eq)]
pub struct TooLong;

/// A way to put a fragment on the tree.
struct Way {
    /// A position for each of its nodes, the root first.
    at: Vec<Position>,
    /// Those of labelled nodes, if these differ from all others.
    own: Vec<Position>,
}

/// For each fragment the ways that are left.
type Left<'a> = Vec<Vec<&'a Way>>;

/// A dominance literal: a fragment, its hole, by the place among its nodes, and the fragment below.
type Dominance = (usize, usize, usize);

/// The nodes of a fragment, the root first.
fn fragment(constraint: &Constraint, root: Node) -> Vec<Node> {
    let below = constraint.children[root].iter().flat_map(|&child| fragment(constraint, child));
    [root].into_iter().chain(below).collect()
}

/// Their positions, if the root is there and each symbol as labelled. A hole may be anything.
fn positions(constraint: &Constraint, tree: &Tree, root: Node, position: Position) -> Option<Vec<Position>> {
    let mut at = vec![position];
    if let Some(symbol) = constraint.symbols[root] {
        if tree.symbols[position] != symbol {
            return None;
        }
        for (&child, &below) in constraint.children[root].iter().zip(&tree.children[position]) {
            at.extend(positions(constraint, tree, child, below)?);
        }
    }
    Some(at)
}

/// All ways to put a fragment on the tree.
fn ways(constraint: &Constraint, tree: &Tree, fragment: &[Node]) -> Vec<Way> {
    let differs = |node: Node| constraint.differ && constraint.symbols[node].is_some();
    let way = |at: Vec<Position>| {
        let own = fragment.iter().zip(&at).filter(|(&node, _)| differs(node)).map(|(_, &position)| position).collect();
        Way { at, own }
    };
    (0..tree.nodes()).filter_map(|position| positions(constraint, tree, fragment[0], position).map(way)).collect()
}

/// Whether the labelled nodes can differ, as far as each of them goes by itself.
fn can_differ(left: &Left, tree: &Tree) -> bool {
    let choices = left.iter().flat_map(|ways| {
        let labelled = ways.first().map_or(0, |way| way.own.len());
        (0..labelled).map(|node| ways.iter().map(|way| way.own[node]).collect())
    });
    each_its_own(&choices.collect::<Vec<Vec<Position>>>(), tree.nodes())
}

struct Search<'a> {
    tree: &'a Tree,
    dominance: Vec<Dominance>,
    /// How many more ways may be tried.
    steps: usize,
}

impl Search<'_> {
    /// Takes out what breaks a dominance literal, however the other fragment is put.
    fn keep_below(&self, left: &mut Left) {
        for &(upper, hole, lower) in &self.dominance {
            let holds = |over: &Way, under: &Way| self.tree.dominates(over.at[hole], under.at[0]);
            // None is left of a fragment that is to be below its own hole: there is no way.
            let mut over = std::mem::take(&mut left[upper]);
            over.retain(|over| left[lower].iter().any(|under| holds(over, under)));
            left[lower].retain(|under| over.iter().any(|over| holds(over, under)));
            left[upper] = over;
        }
    }

    /// Takes out what shares a position with a fragment that has one way left.
    fn keep_apart(&self, left: &mut Left) {
        let mut owner = vec![None; self.tree.nodes()];
        for (fragment, ways) in left.iter().enumerate() {
            if let [only] = ways[..] {
                only.own.iter().for_each(|&position| owner[position] = Some(fragment));
            }
        }
        for (fragment, ways) in left.iter_mut().enumerate() {
            let is_free = |&position: &Position| owner[position].is_none_or(|owner| owner == fragment);
            ways.retain(|way| way.own.iter().all(is_free));
        }
    }

    /// Does both as long as something is taken out. Whether there may be an assignment.
    fn prune(&self, left: &mut Left) -> bool {
        let count = |left: &Left| left.iter().map(Vec::len).sum::<usize>();
        loop {
            let before = count(left);
            self.keep_below(left);
            self.keep_apart(left);
            if left.iter().any(Vec::is_empty) {
                return false;
            }
            if count(left) == before {
                return can_differ(left, self.tree);
            }
        }
    }

    /// One way for each fragment, if that can be: those of the fragment that has the fewest are tried in turn.
    fn settle<'a>(&mut self, mut left: Left<'a>) -> Result<Option<Left<'a>>, TooLong> {
        if !self.prune(&mut left) {
            return Ok(None);
        }
        let open = (0..left.len()).filter(|&fragment| left[fragment].len() > 1);
        let Some(next) = open.min_by_key(|&fragment| left[fragment].len()) else {
            return Ok(Some(left));
        };
        for way in std::mem::take(&mut left[next]) {
            self.steps = self.steps.checked_sub(1).ok_or(TooLong)?;
            left[next] = vec![way];
            let found = self.settle(left.clone())?;
            if found.is_some() {
                return Ok(found);
            }
        }
        Ok(None)
    }
}

/// The dominance literals, by fragments.
fn dominance(constraint: &Constraint, fragments: &[Vec<Node>]) -> Vec<Dominance> {
    let mut places = vec![(0, 0); constraint.graph.nodes()];
    for (number, nodes) in fragments.iter().enumerate() {
        for (place, &node) in nodes.iter().enumerate() {
            places[node] = (number, place);
        }
    }
    let literal = |&(leaf, root): &(Node, Node)| (places[leaf].0, places[leaf].1, places[root].0);
    constraint.graph.dominance.iter().map(literal).collect()
}

/// An assignment that satisfies the constraint, if there is one and no more than so many ways are tried.
pub fn find(constraint: &Constraint, tree: &Tree, steps: usize) -> Result<Option<Vec<Position>>, TooLong> {
    let roots = constraint.graph.roots();
    let fragments: Vec<Vec<Node>> = roots.into_iter().map(|root| fragment(constraint, root)).collect();
    let ways: Vec<Vec<Way>> = fragments.iter().map(|fragment| ways(constraint, tree, fragment)).collect();
    let mut search = Search { tree, dominance: dominance(constraint, &fragments), steps };
    let found = search.settle(ways.iter().map(|ways| ways.iter().collect()).collect())?;
    Ok(found.map(|ways| {
        let mut assignment = vec![0; constraint.graph.nodes()];
        for (nodes, way) in fragments.iter().zip(ways) {
            for (&node, &position) in nodes.iter().zip(&way[0].at) {
                assignment[node] = position;
            }
        }
        assignment
    }))
}

#[cfg(test)]
mod tests {
    use super::*;
    use crate::labelled::{arity, read};
    use crate::labelling::random_labelled;
    use crate::listing::{first, Leave};
    use crate::meaning::satisfies;
    use crate::random::Random;
    use crate::term::term;

    /// Whether some assignment satisfies the constraint, by trying them all.
    fn some_satisfies(constraint: &Constraint, tree: &Tree) -> bool {
        let nodes = constraint.graph.nodes() as u32;
        (0..tree.nodes().pow(nodes)).any(|number| {
            let position = |node: u32| number / tree.nodes().pow(node) % tree.nodes();
            satisfies(constraint, tree, &(0..nodes).map(position).collect::<Vec<Position>>())
        })
    }

    /// The tree as a term, with the children of a node turned round, and another symbol for a node.
    fn changed(tree: &Tree, node: Position, turned: Position, symbol: (Position, u8)) -> String {
        let written = if node == symbol.0 { symbol.1 } else { tree.symbols[node] };
        let mut below: Vec<String> =
            tree.children[node].iter().map(|&child| changed(tree, child, turned, symbol)).collect();
        if node == turned {
            below.reverse();
        }
        if below.is_empty() {
            written.to_string()
        } else {
            format!("{written}({})", below.join(","))
        }
    }

    fn find_in(constraint: &Constraint, text: &str) -> Option<Vec<Position>> {
        find(constraint, &Tree::parse(text.as_bytes()).unwrap(), 10_000).unwrap()
    }

    /// On small sheets and trees, right and wrong ones, the search finds an assignment exactly where there is one.
    #[test]
    fn the_search_is_sound_and_complete() {
        let mut random = Random::new(10);
        let mut trees = vec!["7".to_string()];
        let mut seen = [0, 0];
        while seen[0] + seen[1] < 400 {
            let Ok(constraint) = read(&random_labelled(&mut random).bytes()) else {
                continue;
            };
            if constraint.graph.nodes() > 5 {
                continue;
            }
            let readings = first(&constraint.graph.clone().grown(), 2, Leave::Cyclic, 100).unwrap();
            trees.extend(readings.iter().map(|reading| term(&constraint, reading)));
            // Those of other sheets, too.
            let text = trees[trees.len() - 1 - random.below(trees.len().min(3))].clone();
            let tree = Tree::parse(text.as_bytes()).unwrap();
            let [turned, other] = [random.below(tree.nodes()), random.below(tree.nodes())];
            let symbol = (64 * arity(tree.symbols[other])) as u8;
            for text in [
                &text,
                &changed(&tree, 0, turned, (other, tree.symbols[other])),
                &changed(&tree, 0, 0, (other, symbol)),
            ] {
                let tree = Tree::parse(text.as_bytes()).unwrap();
                if tree.nodes() > 8 {
                    continue;
                }
                let found = find_in(&constraint, text);
                assert_eq!(found.is_some(), some_satisfies(&constraint, &tree), "{constraint:?} {text}");
                assert!(found.as_ref().is_none_or(|found| satisfies(&constraint, &tree, found)));
                seen[usize::from(found.is_some())] += 1;
            }
        }
        assert!(seen[0] > 50 && seen[1] > 50, "{seen:?}");
    }

    /// Terms of sheets of all sizes satisfy them, and hardly any way is tried in vain.
    #[test]
    fn terms_satisfy_their_sheets() {
        let mut random = Random::new(11);
        let mut satisfied = 0;
        for _ in 0..300 {
            let Ok(constraint) = read(&random_labelled(&mut random).bytes()) else {
                continue;
            };
            let readings = first(&constraint.graph.clone().grown(), 2, Leave::Unsolvable, usize::MAX).unwrap();
            for reading in readings {
                let tree = Tree::parse(term(&constraint, &reading).as_bytes()).unwrap();
                let found = find(&constraint, &tree, 1000).unwrap().unwrap();
                assert!(satisfies(&constraint, &tree, &found));
                satisfied += 1;
            }
        }
        assert!(satisfied > 200, "{satisfied}");
    }

    /// 129 over a hole and the constant 9, in this order or the other, and the constant 5 below the hole.
    #[test]
    fn wrong_terms() {
        let [one, other]: [[u8; 6]; 2] = [[2, 0, 1, 2, 0, 2], [2, 0, 2, 2, 0, 1]];
        let sheet = |order: [u8; 6]| [&[1, 4, 5, 0, 129, 5, 2, 9, 5, 3, 5, 3, 1, 3], &order[..], &[6, 0]].concat();
        let [hole_first, hole_last] = [read(&sheet(one)).unwrap(), read(&sheet(other)).unwrap()];
        assert_eq!(find_in(&hole_first, "129(128(5,0),9)"), Some(vec![0, 1, 4, 2]));
        assert_eq!(find_in(&hole_last, "129(9,128(5,0))"), Some(vec![0, 2, 1, 3]));
        // The hole may be the root below it, and that may lie deeper.
        assert_eq!(find_in(&hole_last, "129(9,5)"), Some(vec![0, 2, 1, 2]));
        assert_eq!(find_in(&hole_last, "129(9,128(0,128(0,5)))"), Some(vec![0, 2, 1, 6]));
        for text in
            ["129(128(5,0),9)", "129(5,9)", "130(9,128(5,0))", "129(9,128(6,0))", "128(129(9,0),5)", "129(5,129(9,0))"]
        {
            assert_eq!(find_in(&hole_last, text), None, "{text}");
        }
    }

    /// Two constants that are the same symbol, and one of them in the tree.
    #[test]
    fn labelled_nodes_differ() {
        let sheet = read(&[1, 2, 5, 0, 7, 5, 1, 7, 6, 0]).unwrap();
        assert_eq!(find_in(&sheet, "128(7,0)"), None);
        assert!(find_in(&sheet, "128(7,7)").is_some_and(|found| found[0] != found[1]));
        assert_eq!(find_in(&read(&[1, 1, 5, 0, 7, 0]).unwrap(), "7"), Some(vec![0]));
    }
}
