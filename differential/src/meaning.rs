//! What constraints mean (Section 3.2 of document 000): which literals a tree and an assignment satisfy.
use crate::graph::Node;
use crate::labelled::Constraint;
use crate::tree::{Position, Tree};

enum Literal<'a> {
    /// The node has this symbol and these children, in this order.
    Labels(Node, u8, &'a [Node]),
    Dominates(Node, Node),
    Differ(Node, Node),
}

/// The literals of a constraint.
fn literals(constraint: &Constraint) -> Vec<Literal<'_>> {
    let labelled: Vec<(Node, u8)> =
        constraint.symbols.iter().enumerate().filter_map(|(node, symbol)| Some((node, (*symbol)?))).collect();
    let mut literals = Vec::new();
    for (i, &(node, symbol)) in labelled.iter().enumerate() {
        literals.push(Literal::Labels(node, symbol, &constraint.children[node]));
        if constraint.differ {
            literals.extend(labelled[..i].iter().map(|&(other, _)| Literal::Differ(other, node)));
        }
    }
    literals.extend(constraint.graph.dominance.iter().map(|&(leaf, root)| Literal::Dominates(leaf, root)));
    literals
}

/// Whether the tree satisfies the literal, each node of the sheet standing for its position.
fn holds(tree: &Tree, assignment: &[Position], literal: &Literal) -> bool {
    match *literal {
        Literal::Labels(node, symbol, children) => {
            let position = assignment[node];
            let below = children.iter().map(|&child| assignment[child]);
            tree.symbols[position] == symbol && tree.children[position].iter().copied().eq(below)
        }
        Literal::Dominates(upper, lower) => tree.dominates(assignment[upper], assignment[lower]),
        Literal::Differ(one, other) => assignment[one] != assignment[other],
    }
}

/// Whether tree and assignment satisfy every literal.
pub fn satisfies(constraint: &Constraint, tree: &Tree, assignment: &[Position]) -> bool {
    literals(constraint).iter().all(|literal| holds(tree, assignment, literal))
}

#[cfg(test)]
mod tests {
    use super::*;
    use crate::labelled::read;

    fn is_satisfied(sheet: &[u8], text: &str, assignment: &[Position]) -> bool {
        satisfies(&read(sheet).unwrap(), &Tree::parse(text.as_bytes()).unwrap(), assignment)
    }

    /// 129 over the constant 9 and a hole, and the constant 5 below the hole.
    #[test]
    fn each_literal_has_to_hold() {
        let sheet = [1, 4, 5, 0, 129, 2, 0, 2, 2, 0, 1, 5, 2, 9, 5, 3, 5, 3, 1, 3, 6, 0];
        let holds = |text: &str, assignment: [Position; 4]| is_satisfied(&sheet, text, &assignment);
        assert!(holds("129(9,128(5,0))", [0, 2, 1, 3]));
        // A hole may be the root below it.
        assert!(holds("129(9,5)", [0, 2, 1, 2]));
        // The children the other way round, another symbol, and a root beside the hole or above it.
        assert!(!holds("129(128(5,0),9)", [0, 1, 4, 2]));
        assert!(!holds("129(9,128(5,0))", [0, 1, 2, 3]));
        assert!(!holds("129(9,128(5,0))", [0, 2, 1, 4]));
        assert!(!holds("128(129(9,0),5)", [1, 3, 2, 4]));
    }

    #[test]
    fn labelled_nodes_differ() {
        let sheet = [1, 2, 5, 0, 7, 5, 1, 7, 6, 0];
        assert!(is_satisfied(&sheet, "128(7,7)", &[2, 1]));
        assert!(!is_satisfied(&sheet, "128(7,7)", &[2, 2]));
    }
}
