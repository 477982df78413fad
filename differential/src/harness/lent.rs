//! Lent memory with guard bytes around it, so that every stray write is seen.
use bixtogan::Fragment;
use differential::random::Random;

const GUARD: usize = 48;

/// A lent buffer, its guards, and what all of it held before the call.
pub struct Lent {
    memory: Vec<u8>,
    before: Vec<u8>,
    start: usize,
    length: usize,
}

impl Lent {
    /// A buffer that holds random bytes, at a random place.
    pub fn new(random: &mut Random, length: usize) -> Lent {
        let start = GUARD + random.below(16);
        let memory: Vec<u8> = (0..start + length + GUARD).map(|_| random.byte()).collect();
        Lent { before: memory.clone(), memory, start, length }
    }

    /// A buffer that holds these bytes.
    pub fn of(random: &mut Random, bytes: &[u8]) -> Lent {
        let mut lent = Lent::new(random, bytes.len());
        lent.lend_mut().copy_from_slice(bytes);
        lent.before = lent.memory.clone();
        lent
    }

    pub fn lend(&self) -> &[u8] {
        &self.memory[self.start..self.start + self.length]
    }

    pub fn lend_mut(&mut self) -> &mut [u8] {
        &mut self.memory[self.start..self.start + self.length]
    }

    /// Whether the buffer begins with these bytes and everything after and around them is as it was.
    pub fn holds(&self, written: &[u8]) -> bool {
        let end = self.start + written.len();
        written.len() <= self.length
            && self.memory[..self.start] == self.before[..self.start]
            && self.memory[self.start..end] == *written
            && self.memory[end..] == self.before[end..]
    }

    pub fn is_untouched(&self) -> bool {
        self.memory == self.before
    }
}

const GUARD_RECORDS: usize = 8;

/// A lent table of fragments, guarded in the same way.
pub struct LentTable {
    memory: Vec<Fragment>,
    before: Vec<Fragment>,
    length: usize,
}

impl LentTable {
    pub fn new(random: &mut Random, length: usize) -> LentTable {
        let mut record = || Fragment { root: random.byte(), lowest_leaf: random.byte(), leaves: random.byte() };
        let memory: Vec<Fragment> = (0..length + 2 * GUARD_RECORDS).map(|_| record()).collect();
        LentTable { before: memory.clone(), memory, length }
    }

    pub fn lend_mut(&mut self) -> &mut [Fragment] {
        &mut self.memory[GUARD_RECORDS..GUARD_RECORDS + self.length]
    }

    /// Whether the table begins with these records and everything after and around them is as it was.
    pub fn holds(&self, written: &[[u8; 3]]) -> bool {
        let end = GUARD_RECORDS + written.len();
        let same = |record: &Fragment, wanted: &[u8; 3]| [record.root, record.lowest_leaf, record.leaves] == *wanted;
        written.len() <= self.length
            && self.memory[..GUARD_RECORDS] == self.before[..GUARD_RECORDS]
            && self.memory[GUARD_RECORDS..end].iter().zip(written).all(|(record, wanted)| same(record, wanted))
            && self.memory[end..] == self.before[end..]
    }
}

#[cfg(test)]
mod tests {
    use super::*;

    #[test]
    fn a_stray_write_is_seen() {
        let mut random = Random::new(1);
        for at in [0, GUARD - 1, 70, 79] {
            let mut lent = Lent::new(&mut random, 4);
            let at = at.min(lent.memory.len() - 1);
            lent.memory[at] ^= 1;
            assert!(!lent.is_untouched() && !lent.holds(&[]));
        }
    }

    #[test]
    fn a_result_is_what_it_begins_with() {
        let mut lent = Lent::of(&mut Random::new(2), &[1, 2, 3]);
        lent.lend_mut()[0] = 9;
        assert!(lent.holds(&[9]) && lent.holds(&[9, 2]) && !lent.holds(&[]) && !lent.holds(&[9, 2, 3, 4]));
    }
}
