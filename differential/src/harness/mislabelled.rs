//! Damaged labelled sheets.
use super::damage;
use differential::labelled::{arity, DIFFER, LABEL};
use differential::labelling::{symbol, Labelled};
use differential::random::Random;
use differential::sheet::{DOMINANCE, LONGEST, TREE};

/// The sheet with one or two things wrong, or right by chance.
pub fn damaged(random: &mut Random, sheet: &Labelled) -> Vec<u8> {
    let mut sheet = sheet.clone();
    for _ in 0..random.pick(&[1, 1, 2]) {
        if random.once_in(3) {
            miswrite(random, &mut sheet);
        } else {
            mislabel(random, &mut sheet);
        }
    }
    let bytes = sheet.bytes();
    match random.below(12) {
        0 => damage::damaged(random, &bytes),
        1 => bytes[..random.below(bytes.len())].to_vec(),
        // No end, and a label before it without a symbol, of what is no node; or without a node, too.
        2 => [&bytes[..bytes.len() - 1], &[LABEL, 255][..random.between(1, 2)]].concat(),
        _ => bytes,
    }
}

/// A node that is no child, if there is one.
fn root(random: &mut Random, sheet: &Labelled) -> Option<u8> {
    let is_child = |node: u8| sheet.commands.iter().any(|command| command[0] == TREE && command[2] == node);
    let roots: Vec<u8> = (0..sheet.nodes as u8).filter(|&node| !is_child(node)).collect();
    (!roots.is_empty()).then(|| random.pick(&roots))
}

/// Where one of the labels stands, if there are any: of each number of children about as often.
fn label(random: &mut Random, sheet: &Labelled) -> Option<usize> {
    let children = random.below(4);
    let found = sheet.find(random, |command| command[0] == LABEL && arity(command[2]) == children);
    found.or_else(|| sheet.find(random, |command| command[0] == LABEL))
}

/// Something that 14, 15 and 16 are about.
fn mislabel(random: &mut Random, sheet: &mut Labelled) {
    let (Some(at), Some(root)) = (label(random, sheet), root(random, sheet)) else {
        return;
    };
    let (node, given) = (sheet.commands[at][1], sheet.commands[at][2]);
    let added = sheet.nodes as u8;
    match random.below(12) {
        // A label twice, with the same symbol or with another.
        0 => sheet.insert(random, &[LABEL, node, given]),
        1 => sheet.insert(random, &[LABEL, node, given ^ 1]),
        // A label more, or another symbol, of the same range or not.
        2 => {
            let label = [LABEL, random.below(sheet.nodes) as u8, random.byte()];
            sheet.insert(random, &label);
        }
        3 | 4 => {
            let others = [given.wrapping_add(1), given.wrapping_sub(1), given ^ 64, given ^ 128];
            sheet.commands[at][2] = random.pick(&others);
        }
        5 => drop(sheet.commands.remove(at)),
        6 => sheet.commands.retain(|command| command[0] != DIFFER),
        7 | 8 => sheet.insert(random, &[DOMINANCE, node, root]),
        // A node more: without label and tree edges, labelled, or as a child.
        9 => sheet.nodes += 1,
        10 => {
            sheet.nodes += 1;
            let constant = symbol(random, 0);
            sheet.insert(random, &[LABEL, added, constant]);
        }
        _ => {
            sheet.nodes += 1;
            sheet.insert(random, &[TREE, node, added]);
        }
    }
}

/// Something that the numbers before these are about.
fn miswrite(random: &mut Random, sheet: &mut Labelled) {
    let ends = [random.below(sheet.nodes + 1) as u8, random.below(sheet.nodes + 1) as u8];
    match random.below(8) {
        0 => sheet.insert(random, &[LABEL, sheet.nodes as u8, ends[0]]),
        // A command that is unknown here, or out of place.
        1 => {
            let command = random.pick(&[0, 1, 4, 7, 17, 255]);
            sheet.insert(random, &[command, ends[0], ends[1]]);
        }
        2 | 3 => sheet.insert(random, &[DOMINANCE, ends[0], ends[1]]),
        4 => sheet.insert(random, &[TREE, ends[0], ends[1]]),
        5 => {
            if let Some(at) = sheet.find(random, |command| command[0] == TREE) {
                sheet.commands.remove(at);
            }
        }
        6 => sheet.nodes = random.pick(&[0, 1, 127, 128, 129, 255]),
        // About as long as a sheet may be.
        _ => {
            let length = random.between(LONGEST - 1, LONGEST + 2);
            sheet.lengthen(random, length);
        }
    }
}

#[cfg(test)]
mod tests {
    use super::*;
    use differential::labelled::written;
    use differential::labelling::random_labelled;
    use std::collections::{BTreeMap, BTreeSet};

    /// What the commands say of a node, whatever is wrong with them.
    #[derive(Clone, Default)]
    struct Said {
        symbols: Vec<u8>,
        children: usize,
        is_child: bool,
        starts: bool,
    }

    impl Said {
        fn is_bare(&self) -> bool {
            self.children == 0 && !self.is_child
        }

        /// How many children its symbol takes, if it has one symbol.
        fn takes(&self) -> Option<usize> {
            (self.symbols.len() == 1).then(|| arity(self.symbols[0]))
        }
    }

    /// The commands after the first, the last of them perhaps cut short.
    fn commands(bytes: &[u8]) -> Vec<&[u8]> {
        let mut commands = Vec::new();
        let mut rest = bytes.get(2..).unwrap_or_default();
        while let Some(&kind) = rest.first() {
            let width = if [0, DIFFER].contains(&kind) { 1 } else { 3 };
            let (command, after) = rest.split_at(width.min(rest.len()));
            commands.push(command);
            rest = after;
        }
        commands
    }

    /// What is said of each number.
    fn said(commands: &[&[u8]]) -> Vec<Said> {
        let mut said = vec![Said::default(); 256];
        for command in commands {
            match **command {
                [LABEL, node, symbol] => said[usize::from(node)].symbols.push(symbol),
                [DOMINANCE, leaf, _] => said[usize::from(leaf)].starts = true,
                [TREE, parent, child] => {
                    said[usize::from(parent)].children += 1;
                    said[usize::from(child)].is_child = true;
                }
                _ => {}
            }
        }
        said
    }

    fn kinds(bytes: &[u8]) -> Vec<&'static str> {
        let commands = commands(bytes);
        let said = said(&commands);
        let (nodes, beyond) = said.split_at(bytes.get(1).copied().unwrap_or_default().into());
        let count = |is_meant: fn(&Said) -> bool| nodes.iter().filter(|node| is_meant(node)).count();
        let some = |is_meant: fn(&Said) -> bool| nodes.iter().any(is_meant);
        let bare = count(Said::is_bare);
        let differ = commands.iter().filter(|command| command[0] == DIFFER).count();
        let dominance: BTreeSet<&&[u8]> = commands.iter().filter(|command| command[0] == DOMINANCE).collect();
        let kinds = [
            ("any", true),
            ("1 node", nodes.len() == 1),
            ("grown to 128", bare > 0 && nodes.len() + bare == 128),
            ("255 edges", dominance.len() == 255),
            ("2,048 bytes", bytes.len() == 2048),
            ("no 6", differ == 0),
            ("6 twice", differ > 1),
            ("label cut short", commands.last().is_some_and(|last| last[0] == LABEL && last.len() < 3)),
            ("label of no node", beyond.iter().any(|node| !node.symbols.is_empty())),
            ("label twice", some(|node| node.symbols.len() > 1 && node.symbols[0] == node.symbols[1])),
            ("two symbols", some(|node| node.symbols.len() > 1 && node.symbols[0] != node.symbols[1])),
            ("too few", some(|node| node.takes().is_some_and(|takes| node.children < takes))),
            ("too many", some(|node| node.takes().is_some_and(|takes| node.children > takes))),
            ("fourth child", some(|node| node.takes() == Some(3) && node.children > 3)),
            ("no label above", some(|node| node.symbols.is_empty() && node.children > 0)),
            ("overlap", differ == 0 && count(|node| !node.symbols.is_empty()) > 1),
            ("edge from a label", some(|node| node.starts && !node.symbols.is_empty())),
            ("alone", some(|node| node.symbols.is_empty() && node.is_bare())),
        ];
        kinds.into_iter().filter(|kind| kind.1).map(|kind| kind.0).collect()
    }

    /// A run has enough sheets of each kind that document 02, Three, speaks of, and of what comes before it.
    #[test]
    fn each_kind_occurs() {
        let mut seen: BTreeMap<(u8, &str), usize> = BTreeMap::new();
        // Those of accepted sheets.
        let mut symbols = BTreeSet::new();
        for index in 0..2500 {
            let mut random = crate::random_of(1, index);
            let sheet = random_labelled(&mut random);
            let damaged: Vec<Vec<u8>> = (0..4).map(|_| damaged(&mut random, &sheet)).collect();
            for bytes in [vec![sheet.bytes()], damaged].concat() {
                let number = written(&bytes).err().unwrap_or(0);
                for kind in kinds(&bytes) {
                    *seen.entry((number, kind)).or_default() += 1;
                }
                if number == 0 {
                    symbols.extend(said(&commands(&bytes)).into_iter().flat_map(|node| node.symbols));
                }
            }
        }
        for (number, kind, enough) in [
            (0, "any", 2000),
            (0, "1 node", 50),
            (0, "grown to 128", 20),
            (0, "255 edges", 50),
            (0, "2,048 bytes", 100),
            (0, "no 6", 50),
            (0, "6 twice", 500),
            (1, "label cut short", 200),
            (2, "any", 200),
            (3, "label of no node", 200),
            (4, "label twice", 5),
            (6, "label twice", 10),
            (6, "overlap", 10),
            (6, "edge from a label", 200),
            (8, "any", 30),
            (12, "any", 200),
            (13, "label twice", 5),
            (13, "alone", 50),
            (14, "label twice", 100),
            (14, "two symbols", 100),
            (14, "too few", 100),
            (14, "too many", 100),
            (14, "fourth child", 10),
            (14, "no label above", 100),
            (14, "overlap", 20),
            (14, "edge from a label", 20),
            (14, "alone", 20),
            (15, "any", 100),
            (15, "edge from a label", 5),
            (15, "alone", 5),
            (16, "edge from a label", 50),
            (16, "alone", 100),
        ] {
            let times = seen.get(&(number, kind)).copied().unwrap_or_default();
            assert!(times >= enough, "{number}, {kind}: {times}");
        }
        assert!([0, 63, 64, 127, 128, 191, 192, 255].iter().all(|border| symbols.contains(border)));
    }
}
