//! Matchings in bipartite graphs, by augmenting paths.

struct Matching<'a> {
    choices: &'a [Vec<usize>],
    /// Who has each thing.
    taker: Vec<Option<usize>>,
}

impl Matching<'_> {
    /// Gives one of its choices to `who`; others may have to move. Things that were `seen` are no longer asked for.
    fn serve(&mut self, who: usize, seen: &mut [bool]) -> bool {
        for &thing in &self.choices[who] {
            if std::mem::replace(&mut seen[thing], true) {
                continue;
            }
            if self.taker[thing].is_none_or(|other| self.serve(other, seen)) {
                self.taker[thing] = Some(who);
                return true;
            }
        }
        false
    }
}

/// Whether each can have one of its choices, all of them different. There are so many things to choose from.
pub fn each_its_own(choices: &[Vec<usize>], things: usize) -> bool {
    let mut matching = Matching { choices, taker: vec![None; things] };
    (0..choices.len()).all(|who| matching.serve(who, &mut vec![false; things]))
}

#[cfg(test)]
mod tests {
    use super::each_its_own;

    #[test]
    fn some_have_to_move() {
        assert!(each_its_own(&[], 0));
        assert!(each_its_own(&[vec![0, 1], vec![0], vec![2, 1]], 3));
        assert!(!each_its_own(&[vec![0, 1], vec![0], vec![1]], 3));
        assert!(!each_its_own(&[vec![]], 3));
    }
}
