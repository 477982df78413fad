//! Constructor trees (Section 3.1 of document 000), and the terms that write them.
use crate::labelled::arity;

/// A node of a tree: its place in the term, counted from 0.
pub type Position = usize;

pub struct Tree {
    /// The symbol of each node.
    pub symbols: Vec<u8>,
    /// The children of each node, in order.
    pub children: Vec<Vec<Position>>,
    /// Of each node, what follows the last node below it.
    ends: Vec<Position>,
}

impl Tree {
    /// The tree of a term, if the text is one.
    pub fn parse(text: &[u8]) -> Option<Tree> {
        let mut tree = Tree { symbols: Vec::new(), children: Vec::new(), ends: Vec::new() };
        let mut rest = text;
        tree.read(&mut rest)?;
        rest.is_empty().then_some(tree)
    }

    pub fn nodes(&self) -> usize {
        self.symbols.len()
    }

    /// Whether a path leads down from one node to the other, or they are one.
    pub fn dominates(&self, upper: Position, lower: Position) -> bool {
        (upper..self.ends[upper]).contains(&lower)
    }

    /// Reads a node with all below it. Each symbol has as many children as it takes, and a constant no brackets.
    fn read(&mut self, rest: &mut &[u8]) -> Option<Position> {
        let symbol = number(rest)?;
        let node = self.nodes();
        self.symbols.push(symbol);
        self.children.push(Vec::new());
        self.ends.push(node);
        for child in 0..arity(symbol) {
            sign(rest, if child == 0 { b'(' } else { b',' })?;
            let below = self.read(rest)?;
            self.children[node].push(below);
        }
        if arity(symbol) > 0 {
            sign(rest, b')')?;
        }
        self.ends[node] = self.nodes();
        Some(node)
    }
}

fn sign(rest: &mut &[u8], wanted: u8) -> Option<()> {
    *rest = rest.strip_prefix(&[wanted])?;
    Some(())
}

/// A number up to 255, without figures before it that say nothing.
fn number(rest: &mut &[u8]) -> Option<u8> {
    let figures = rest.iter().take_while(|byte| byte.is_ascii_digit()).count();
    let (text, after) = rest.split_at(figures);
    *rest = after;
    let number: u8 = std::str::from_utf8(text).ok()?.parse().ok()?;
    (number.to_string().as_bytes() == text).then_some(number)
}

#[cfg(test)]
mod tests {
    use super::Tree;

    #[test]
    fn a_term_is_its_tree() {
        let tree = Tree::parse(b"64(200(3,128(5,0),255(1,2,9)))").unwrap();
        assert_eq!(tree.symbols, [64, 200, 3, 128, 5, 0, 255, 1, 2, 9]);
        assert_eq!(tree.children[1], [2, 3, 6]);
        assert_eq!((&tree.children[6][..], &tree.children[9][..]), (&[7, 8, 9][..], &[][..]));
        let dominated = |upper| (0..tree.nodes()).filter(|&lower| tree.dominates(upper, lower)).collect::<Vec<_>>();
        assert_eq!(dominated(0).len(), 10);
        assert_eq!((dominated(3), dominated(5), dominated(6)), (vec![3, 4, 5], vec![5], vec![6, 7, 8, 9]));
    }

    #[test]
    fn what_is_no_term() {
        for text in ["7", "0", "63", "64(0)", "128(0,63)", "192(1,2,3)"] {
            assert!(Tree::parse(text.as_bytes()).is_some(), "{text}");
        }
        let wrong = "a 64 63(0) 63() 64() 64(0 64(0)) 64(0,1) 128(0) 128(0,1,2) 128(0;1) 192(1,2) 07 64(00) 256 +7 7,8";
        for text in wrong.split(' ').chain(["", "64 (0)", "7\n"]) {
            assert!(Tree::parse(text.as_bytes()).is_none(), "{text}");
        }
    }
}
