//! All placings of a tiny sheet, and of them the solved forms and the readings by their definitions alone.
use crate::graph::{Descent, Graph};
use crate::placing::{solved_form, TOP};

/// A solved form and its descent relation.
pub struct Solved {
    pub placing: Vec<u8>,
    pub descent: Descent,
}

/// How many placings the graph has.
pub fn placings(graph: &Graph) -> usize {
    let choices = graph.leaves().len() + 1;
    graph.roots().iter().fold(1, |placings: usize, _| placings.saturating_mul(choices))
}

/// Every placing, handed to `visit`.
pub fn each_placing(graph: &Graph, mut visit: impl FnMut(&[u8])) {
    let roots = graph.roots();
    let choices: Vec<u8> = graph.leaves().into_iter().map(|leaf| leaf as u8).chain([TOP]).collect();
    for number in 0..placings(graph) {
        let mut placing = vec![TOP; graph.nodes()];
        let mut rest = number;
        for &root in &roots {
            placing[root] = choices[rest % choices.len()];
            rest /= choices.len();
        }
        visit(&placing);
    }
}

/// All solved forms, those with fewer pairs first.
pub fn solved_forms(graph: &Graph) -> Vec<Solved> {
    let mut solved = Vec::new();
    each_placing(graph, |placing| {
        if let Some(descent) = solved_form(graph, placing) {
            solved.push(Solved { placing: placing.to_vec(), descent });
        }
    });
    solved.sort_by_key(|form| form.descent.pairs());
    solved
}

/// Those of the solved forms, given by ascending number of pairs, that have none strictly below them.
pub fn minimal(solved: &[Solved]) -> Vec<&Solved> {
    let mut minimal: Vec<&Solved> = Vec::new();
    for form in solved {
        // Below every solved form there is a minimal one, and it has come before.
        if !minimal.iter().any(|below| below.descent != form.descent && form.descent.contains(&below.descent)) {
            minimal.push(form);
        }
    }
    minimal
}
