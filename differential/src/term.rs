//! Readings of labelled sheets as terms (document 02, Five): trees as Lemma 3.6 makes them.
use crate::graph::Node;
use crate::labelled::Constraint;
use crate::placing::{hung, TOP};

/// The two-place symbol of a hole that carries fragments, and the constant that fills it out.
const PAIR: u8 = 128;
const FILLER: u8 = 0;

/// What becomes of a hole that carries these, by ascending root.
fn hole(carried: &[String]) -> String {
    match carried {
        [] => FILLER.to_string(),
        [only] => format!("{PAIR}({only},{FILLER})"),
        [first, second] => format!("{PAIR}({first},{second})"),
        [first, rest @ ..] => format!("{PAIR}({first},{})", hole(rest)),
    }
}

fn node(constraint: &Constraint, placing: &[u8], at: Node) -> String {
    let write = |below: Node| node(constraint, placing, below);
    let Some(symbol) = constraint.symbols[at] else {
        let under = hung(placing).filter(|&(above, _)| above == at);
        return hole(&under.map(|(_, root)| write(root)).collect::<Vec<String>>());
    };
    let children: Vec<String> = constraint.children[at].iter().map(|&child| write(child)).collect();
    match &children[..] {
        [] => symbol.to_string(),
        children => format!("{symbol}({})", children.join(",")),
    }
}

/// The term of a reading. No constant and no added leaf carries a root there, since none starts a dominance edge.
pub fn term(constraint: &Constraint, reading: &[u8]) -> String {
    let top = constraint.graph.roots().into_iter().filter(|&root| reading[root] == TOP);
    let fragments: Vec<String> = top.map(|root| node(constraint, reading, root)).collect();
    match &fragments[..] {
        [only] => only.clone(),
        several => hole(several),
    }
}

#[cfg(test)]
mod tests {
    use super::term;
    use crate::labelled::read;
    use crate::listing::all;

    /// The terms of the labelled sheet with these nodes, labels, tree edges and dominance edges.
    fn terms(nodes: u8, labels: &[[u8; 2]], tree: &[[u8; 2]], dominance: &[[u8; 2]]) -> Vec<String> {
        let commands = [(5, labels), (2, tree), (3, dominance)];
        let commands = commands.into_iter().flat_map(|(kind, pairs)| pairs.iter().map(move |&[a, b]| [kind, a, b]));
        let sheet = [&[1, nodes], &commands.collect::<Vec<_>>().concat()[..], &[6, 0]].concat();
        let constraint = read(&sheet).unwrap();
        let readings = all(&constraint.graph.clone().grown());
        readings.iter().map(|reading| term(&constraint, reading)).collect()
    }

    #[test]
    fn constants() {
        assert_eq!(terms(1, &[[0, 7]], &[], &[]), ["7"]);
        assert_eq!(terms(2, &[[0, 7], [1, 9]], &[], &[]), ["128(7,9)"]);
        assert_eq!(terms(3, &[[0, 9], [1, 8], [2, 7]], &[], &[]), ["128(9,128(8,7))"]);
        assert_eq!(terms(4, &[[3, 1], [2, 2], [1, 3], [0, 4]], &[], &[]), ["128(4,128(3,128(2,1)))"]);
    }

    #[test]
    fn holes() {
        assert_eq!(terms(2, &[[0, 64]], &[[0, 1]], &[]), ["64(0)"]);
        assert_eq!(terms(3, &[[0, 64], [2, 5]], &[[0, 1]], &[[1, 2]]), ["64(128(5,0))"]);
        let labels = [[0, 64], [2, 5], [3, 6], [4, 7]];
        assert_eq!(terms(4, &labels[..3], &[[0, 1]], &[[1, 2], [1, 3]]), ["64(128(5,6))"]);
        assert_eq!(terms(5, &labels, &[[0, 1]], &[[1, 2], [1, 3], [1, 4]]), ["64(128(5,128(6,7)))"]);
        // A hole and a labelled leaf in one fragment, and another fragment beside it.
        let labels = [[0, 128], [1, 4], [3, 6]];
        assert_eq!(terms(4, &labels, &[[0, 1], [0, 2]], &[]), ["128(128(4,0),6)"]);
    }

    /// Children come as their commands do.
    #[test]
    fn orders_of_children() {
        let labels = [[0, 129], [2, 9], [3, 5]];
        assert_eq!(terms(4, &labels, &[[0, 2], [0, 1]], &[[1, 3]]), ["129(9,128(5,0))"]);
        assert_eq!(terms(4, &labels, &[[0, 1], [0, 2]], &[[1, 3]]), ["129(128(5,0),9)"]);
        let labels = [[0, 200], [1, 1], [2, 2], [3, 3]];
        assert_eq!(terms(4, &labels, &[[0, 3], [0, 1], [0, 2]], &[]), ["200(3,1,2)"]);
    }

    #[test]
    fn two_readings() {
        let labels = [[0, 70], [2, 80], [4, 9]];
        let found = terms(5, &labels, &[[0, 1], [2, 3]], &[[1, 4], [3, 4]]);
        assert_eq!(found, ["70(128(80(128(9,0)),0))", "80(128(70(128(9,0)),0))"]);
    }

    /// The sheet may have the symbols 128 and 0 itself.
    #[test]
    fn the_symbols_of_holes_in_the_sheet() {
        let labels = [[0, 64], [2, 128], [3, 4], [5, 6]];
        let found = terms(6, &labels, &[[0, 1], [2, 3], [2, 4]], &[[1, 2], [1, 5]]);
        assert_eq!(found, ["64(128(128(4,0),6))"]);
    }
}
