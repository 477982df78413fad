//! The text form of a sheet: a line a command, `nodes 12`, `tree 0 1`, `dom 1 6`, in labelled sheets `label 0 128` and `differ`
//! besides; `#` begins a comment.

const END: u8 = 0;
const NODES: u8 = 1;
const TREE: u8 = 2;
const DOMINANCE: u8 = 3;
const LABEL: u8 = 5;
const DIFFER: u8 = 6;

/// A sheet's commands, as far as they can be read.
#[derive(Default)]
pub struct Commands {
    /// How many are written.
    pub nodes: u8,
    pub tree: Vec<(u8, u8)>,
    /// Each of them once.
    pub dominance: Vec<(u8, u8)>,
    /// Whether there are commands that only a labelled sheet has.
    pub labelled: bool,
    /// All commands, in order.
    pub lines: Vec<String>,
}

/// Reads commands until one is unknown or cut off. Which sheets are well-formed is the library's to say.
pub fn commands(sheet: &[u8]) -> Commands {
    let mut read = Commands::default();
    let mut rest = sheet;
    loop {
        rest = match *rest {
            [NODES, n, ref rest @ ..] => {
                read.nodes = n;
                read.lines.push(format!("nodes {n}"));
                rest
            }
            [TREE, parent, child, ref rest @ ..] => {
                read.tree.push((parent, child));
                read.lines.push(format!("tree {parent} {child}"));
                rest
            }
            [DOMINANCE, leaf, root, ref rest @ ..] => {
                if !read.dominance.contains(&(leaf, root)) {
                    read.dominance.push((leaf, root));
                }
                read.lines.push(format!("dom {leaf} {root}"));
                rest
            }
            [LABEL, node, symbol, ref rest @ ..] => {
                read.labelled = true;
                read.lines.push(format!("label {node} {symbol}"));
                rest
            }
            [DIFFER, ref rest @ ..] => {
                read.labelled = true;
                read.lines.push("differ".to_string());
                rest
            }
            _ => return read,
        }
    }
}

/// The sheet of a text, its end byte put after the last line.
pub fn encode(text: &str) -> Result<Vec<u8>, String> {
    let mut sheet = Vec::new();
    for (number, line) in text.lines().enumerate() {
        let words: Vec<&str> = line.split('#').next().unwrap_or("").split_whitespace().collect();
        let bytes = command(&words).ok_or_else(|| {
            format!(
                "line {}: wanted `nodes N`, `tree PARENT CHILD`, `dom LEAF ROOT`, `label NODE SYMBOL` or `differ`, \
                 with numbers up to 255",
                number + 1
            )
        })?;
        sheet.extend(bytes);
    }
    sheet.push(END);
    Ok(sheet)
}

fn command(words: &[&str]) -> Option<Vec<u8>> {
    let byte = |word: &str| word.parse::<u8>().ok();
    match words {
        [] => Some(vec![]),
        ["nodes", n] => Some(vec![NODES, byte(n)?]),
        ["tree", parent, child] => Some(vec![TREE, byte(parent)?, byte(child)?]),
        ["dom", leaf, root] => Some(vec![DOMINANCE, byte(leaf)?, byte(root)?]),
        ["label", node, symbol] => Some(vec![LABEL, byte(node)?, byte(symbol)?]),
        ["differ"] => Some(vec![DIFFER]),
        _ => None,
    }
}

#[cfg(test)]
mod tests {
    use super::*;

    #[test]
    fn a_text_is_its_bytes() {
        let text = "nodes 4 # two fragments\n\ntree 0 1\ntree 2 3\ndom 1 2\n";
        assert_eq!(encode(text), Ok(vec![1, 4, 2, 0, 1, 2, 2, 3, 3, 1, 2, 0]));
    }

    #[test]
    fn bytes_are_their_text() {
        let lines = commands(&[1, 4, 2, 0, 1, 2, 2, 3, 3, 1, 2, 0]).lines;
        assert_eq!(lines, ["nodes 4", "tree 0 1", "tree 2 3", "dom 1 2"]);
    }

    #[test]
    fn one_node_alone() {
        assert_eq!(encode("nodes 1\n"), Ok(vec![1, 1, 0]));
        assert_eq!(commands(&[1, 1, 0]).lines, ["nodes 1"]);
    }

    #[test]
    fn a_repeat_is_a_line_and_no_edge() {
        let read = commands(&[1, 4, 2, 0, 1, 2, 2, 3, 3, 1, 2, 3, 1, 2, 0]);
        assert_eq!(read.lines, ["nodes 4", "tree 0 1", "tree 2 3", "dom 1 2", "dom 1 2"]);
        assert_eq!(read.dominance, [(1, 2)]);
    }

    #[test]
    fn labels_have_lines() {
        let text = "nodes 2\nlabel 0 64\ntree 0 1\ndiffer\nlabel 1 255\ndiffer\n";
        let sheet = [1, 2, 5, 0, 64, 2, 0, 1, 6, 5, 1, 255, 6, 0];
        assert_eq!(encode(text), Ok(sheet.to_vec()));
        let read = commands(&sheet);
        assert!(read.lines.iter().map(String::as_str).eq(text.lines()) && read.labelled);
        assert_eq!((read.nodes, read.tree), (2, vec![(0, 1)]));
        assert!(!commands(&[1, 2, 2, 0, 1, 0]).labelled);
    }

    #[test]
    fn a_wrong_line_is_named() {
        assert!(encode("nodes 4\ntree 0\n").unwrap_err().starts_with("line 2:"));
        for line in ["nodes 256", "label 0", "label 0 256", "differ 0"] {
            assert!(encode(line).is_err(), "{line}");
        }
    }

    #[test]
    fn a_cut_sheet_shows_what_can_be_read() {
        assert_eq!(commands(&[1, 4, 2, 0, 1, 2, 2]).lines, ["nodes 4", "tree 0 1"]);
        assert_eq!(commands(&[1, 4, 6, 5, 0]).lines, ["nodes 4", "differ"]);
        assert!(commands(&[5]).lines.is_empty());
    }
}
