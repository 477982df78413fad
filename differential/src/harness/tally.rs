//! How much was compared.
use super::known::Known;
use std::ops::AddAssign;

#[derive(Clone, Copy, Default)]
pub struct Tally {
    pub sheets: u64,
    /// Those of the sheets that aren't well-formed.
    pub refused: u64,
    /// Those of these that grow too large.
    pub overgrown: u64,
    /// Those that are well-formed and grow.
    pub grown: u64,
    /// Those that have no reading.
    pub unsolvable: u64,
    /// Those that are accepted as labelled sheets.
    pub labelled: u64,
    /// The terms that were found to satisfy their sheet.
    pub terms: u64,
    pub calls: u64,
}

impl Tally {
    /// Of one sheet, no call made.
    pub fn of(known: &Known) -> Tally {
        let refused = u64::from(known.facts.is_err());
        let overgrown = u64::from(known.facts.as_ref().is_err_and(|&number| number == 13));
        let grown = u64::from(known.facts.as_ref().is_ok_and(|facts| facts.written < facts.nodes()));
        let unsolvable = u64::from(known.facts.as_ref().is_ok_and(|facts| !facts.solvable));
        let labelled = u64::from(known.labelled.is_ok());
        Tally { sheets: 1, refused, overgrown, grown, unsolvable, labelled, terms: 0, calls: 0 }
    }
}

impl AddAssign for Tally {
    fn add_assign(&mut self, other: Tally) {
        self.sheets += other.sheets;
        self.refused += other.refused;
        self.overgrown += other.overgrown;
        self.grown += other.grown;
        self.unsolvable += other.unsolvable;
        self.labelled += other.labelled;
        self.terms += other.terms;
        self.calls += other.calls;
    }
}
