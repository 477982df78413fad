//! The call for terms, and whether each term satisfies its sheet.
use super::calls::{Caller, Compared};
use super::known::Accepted;
use super::trial::{forged, lengths};
use super::Difference;
use differential::assignment;
use differential::labelled::Constraint;
use differential::meaning::satisfies;
use differential::tree::Tree;
use differential::TERM;

/// How many ways a search may try. Nearly all sheets here take less than a hundredth of it. Where most nodes of a large one share
/// their symbol, a search may take more: then its term is not held.
const STEPS: usize = 10_000;

/// Terms of one sheet that are held against its literals.
const HELD: usize = 8;

/// Buffers around the limit and far smaller, whatever the bytes are; and of an accepted sheet every kind of number.
pub fn terms(caller: &mut Caller) -> Compared {
    for room in lengths(caller.random, TERM) {
        let number = caller.random.below(3) as u64;
        caller.term(number, room)?;
    }
    let Ok(Accepted { constraint, plain }) = &caller.known.labelled else {
        return Ok(());
    };
    let Ok(facts) = &plain.facts else {
        return Ok(());
    };
    for number in [vec![0], forged(caller.random, facts)].concat() {
        caller.term(number, TERM)?;
    }
    for number in 1..=facts.readings.len().min(HELD) {
        let text = caller.term(number as u64, TERM)?;
        held(caller, constraint, &text)?;
    }
    Ok(())
}

/// Whether it was found that a tree which satisfies the constraint was read from the text; else why there is none.
fn satisfied(constraint: &Constraint, text: &[u8]) -> Result<bool, String> {
    let Some(tree) = Tree::parse(text) else {
        return Err("no term".to_string());
    };
    match assignment::find(constraint, &tree, STEPS) {
        Ok(Some(assignment)) if satisfies(constraint, &tree, &assignment) => Ok(true),
        Ok(Some(assignment)) => Err(format!("{assignment:?}, which does not satisfy it")),
        Ok(None) => Err("no assignment satisfies it".to_string()),
        Err(assignment::TooLong) => Ok(false),
    }
}

/// Holds a term that was written against the literals of its sheet.
pub fn held(caller: &mut Caller, constraint: &Constraint, text: &[u8]) -> Compared {
    let found = satisfied(constraint, text).map_err(|why| Difference {
        sheet: caller.known.bytes.clone(),
        call: format!("none: the term {}", String::from_utf8_lossy(text)),
        wanted: "an assignment that satisfies every literal of the sheet".to_string(),
        given: why,
    })?;
    caller.tally.terms += u64::from(found);
    Ok(())
}

#[cfg(test)]
mod tests {
    use super::*;
    use crate::harness::mislabelled::damaged;
    use differential::labelled::read;
    use differential::labelling::random_labelled;
    use differential::listing::{first, Leave};
    use differential::placing::{hung, TOP};
    use differential::term::term;
    use std::collections::BTreeMap;

    /// 70 and 80, each over a hole that 9 is below: a term with two holes of one root each.
    #[test]
    fn wrong_terms_are_told() {
        let sheet = [1, 5, 5, 0, 70, 2, 0, 1, 5, 2, 80, 2, 2, 3, 5, 4, 9, 3, 1, 4, 3, 3, 4, 6, 0];
        let constraint = read(&sheet).unwrap();
        let told = |text: &str| satisfied(&constraint, text.as_bytes());
        for text in ["70(128(80(128(9,0)),0))", "80(128(70(128(9,0)),0))", "70(80(9))"] {
            assert_eq!(told(text), Ok(true), "{text}");
        }
        for text in ["70(128(80(128(9)),0))", "70(128(80(128(9,0),0))", ""] {
            assert_eq!(told(text), Err("no term".to_string()), "{text}");
        }
        for text in ["128(70(128(9,0)),80(0))", "128(70(0),80(128(9,0)))", "70(128(80(0),9))", "70(128(9,0))", "9"] {
            assert_eq!(told(text), Err("no assignment satisfies it".to_string()), "{text}");
        }
    }

    /// What a reading has that document 02, Five, speaks of.
    fn kinds(constraint: &Constraint, reading: &[u8]) -> Vec<&'static str> {
        let holes = (0..constraint.graph.nodes()).filter(|&node| constraint.symbols[node].is_none());
        let carried: Vec<usize> = holes.map(|hole| hung(reading).filter(|&(above, _)| above == hole).count()).collect();
        let top = constraint.graph.roots().into_iter().filter(|&root| reading[root] == TOP).count();
        let has = |symbol| constraint.symbols.contains(&Some(symbol));
        let kinds = [
            ("empty hole", carried.contains(&0)),
            ("hole with one", carried.contains(&1)),
            ("hole with two", carried.contains(&2)),
            ("hole with three", carried.contains(&3)),
            ("hole with more", carried.iter().any(|&roots| roots > 3)),
            ("one on top", top == 1),
            ("two on top", top == 2),
            ("more on top", top > 2),
            ("added leaf", !constraint.graph.bare_nodes().is_empty()),
            ("children in another order", constraint.children.iter().any(|children| !children.is_sorted())),
            ("three children", constraint.children.iter().any(|children| children.len() == 3)),
            ("128 and 0", has(128) && has(0)),
            ("64 fragments", constraint.graph.roots().len() == 64),
            ("600 bytes", term(constraint, reading).len() > 600),
        ];
        kinds.into_iter().filter(|kind| kind.1).map(|kind| kind.0).collect()
    }

    /// A run has enough terms of each kind, and enough sheets that have none.
    #[test]
    fn each_kind_occurs() {
        let mut seen: BTreeMap<&str, usize> = BTreeMap::new();
        for index in 0..2500 {
            let mut random = crate::random_of(1, index);
            let sheet = random_labelled(&mut random);
            for bytes in [sheet.bytes(), damaged(&mut random, &sheet)] {
                let Ok(constraint) = read(&bytes) else {
                    continue;
                };
                let readings = first(&constraint.graph.clone().grown(), 2, Leave::Unsolvable, usize::MAX).unwrap();
                let several = ["no reading", "one reading", "two readings"][readings.len()];
                let kinds = readings.first().map_or(Vec::new(), |reading| kinds(&constraint, reading));
                for kind in [vec![several], kinds].concat() {
                    *seen.entry(kind).or_default() += 1;
                }
            }
        }
        for (kind, enough) in [
            ("no reading", 400),
            ("one reading", 400),
            ("two readings", 200),
            ("empty hole", 400),
            ("hole with one", 400),
            ("hole with two", 200),
            ("hole with three", 100),
            ("hole with more", 50),
            ("one on top", 400),
            ("two on top", 100),
            ("more on top", 200),
            ("added leaf", 200),
            ("children in another order", 200),
            ("three children", 100),
            ("128 and 0", 100),
            ("64 fragments", 10),
            ("600 bytes", 10),
        ] {
            let times = seen.get(kind).copied().unwrap_or_default();
            assert!(times >= enough, "{kind}: {times}");
        }
    }
}
