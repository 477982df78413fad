//! Graphviz pictures: tree edges solid, dominance edges dashed, added leaves dotted; in a reading, bold edges from a leaf to the
//! roots hung under it.
use crate::form::Commands;
use std::fmt::Write;

/// A sheet that is read.
pub struct Pictured {
    pub commands: Commands,
    /// The leaves that were added, each after its root.
    pub added: Vec<(u8, u8)>,
}

/// An edge of a cycle: two nodes, lower first, and the kind of the edge, 2 for tree and 3 for dominance.
type Edge = (u8, u8, u8);

fn edges_of(cycle: &[u8]) -> Vec<Edge> {
    let pairs: Vec<(u8, u8)> = cycle.chunks_exact(2).map(|pair| (pair[0], pair[1])).collect();
    (0..pairs.len())
        .map(|i| {
            let (node, kind) = pairs[i];
            let next = pairs[(i + 1) % pairs.len()].0;
            (node.min(next), node.max(next), kind)
        })
        .collect()
}

fn line(out: &mut String, from: u8, to: u8, style: &str, marked: bool) {
    let colour = if marked { ", color=red, penwidth=2" } else { "" };
    let _ = writeln!(out, "  {from} -> {to} [style={style}{colour}];");
}

/// The tree edges, those to added leaves last.
fn trees(out: &mut String, sheet: &Pictured, is_marked: impl Fn(u8, u8) -> bool) {
    for &(parent, child) in &sheet.commands.tree {
        line(out, parent, child, "solid", is_marked(parent, child));
    }
    for &(root, leaf) in &sheet.added {
        let _ = writeln!(out, "  {leaf} [style=dotted];");
        line(out, root, leaf, "solid", false);
    }
}

/// The sheet; the edges of the cycle, if there is one, in red.
pub fn sheet(sheet: &Pictured, cycle: &[u8]) -> String {
    let marked = edges_of(cycle);
    let is_marked = |from: u8, to: u8, kind: u8| marked.contains(&(from.min(to), from.max(to), kind));
    let mut out = String::from("digraph sheet {\n  node [shape=circle];\n");
    trees(&mut out, sheet, |parent, child| is_marked(parent, child, 2));
    for &(leaf, root) in &sheet.commands.dominance {
        line(&mut out, leaf, root, "dashed", is_marked(leaf, root, 3));
    }
    out.push_str("}\n");
    out
}

/// A placing of the sheet.
pub fn placing(sheet: &Pictured, placing: &[u8]) -> String {
    let mut out = String::from("digraph reading {\n  node [shape=circle];\n");
    trees(&mut out, sheet, |_, _| false);
    for (root, &leaf) in placing.iter().enumerate() {
        if leaf != bixtogan::TOP {
            line(&mut out, leaf, root as u8, "bold", false);
        }
    }
    for &(leaf, root) in &sheet.commands.dominance {
        let _ = writeln!(out, "  {leaf} -> {root} [style=dashed, constraint=false];");
    }
    out.push_str("}\n");
    out
}

#[cfg(test)]
mod tests {
    use super::Pictured;
    use crate::form::commands;

    fn pictured(sheet: &[u8], added: &[(u8, u8)]) -> Pictured {
        Pictured { commands: commands(sheet), added: added.to_vec() }
    }

    #[test]
    fn the_cycle_is_marked() {
        let sheet = pictured(&[1, 5, 2, 0, 1, 2, 0, 2, 2, 3, 4, 3, 1, 3, 3, 2, 3, 0], &[]);
        let picture = super::sheet(&sheet, &[0, 2, 1, 3, 3, 3, 2, 2]);
        assert_eq!(picture.matches("color=red").count(), 4);
        assert!(picture.contains("  3 -> 4 [style=solid];\n"));
        assert!(picture.contains("  1 -> 3 [style=dashed, color=red, penwidth=2];\n"));
    }

    #[test]
    fn a_hung_root_is_bold() {
        let sheet = pictured(&[1, 4, 2, 0, 1, 2, 2, 3, 3, 1, 2, 0], &[]);
        let picture = super::placing(&sheet, &[255, 255, 1, 255]);
        assert!(picture.contains("  1 -> 2 [style=bold];\n"));
        assert!(picture.contains("  1 -> 2 [style=dashed, constraint=false];\n"));
    }

    #[test]
    fn an_added_leaf_is_dotted() {
        let sheet = pictured(&[1, 3, 2, 0, 1, 3, 1, 2, 0], &[(2, 3)]);
        for picture in [super::sheet(&sheet, &[]), super::placing(&sheet, &[255, 255, 1, 255])] {
            assert!(picture.contains("  3 [style=dotted];\n  2 -> 3 [style=solid];\n"));
            assert_eq!(picture.matches("dotted").count(), 1);
        }
    }
}
