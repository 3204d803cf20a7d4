//! Rows lent out of the middle of longer ones, so that a change around them is seen.

use crate::random::Numbers;
use std::fmt::Debug;

/// So many entries stand on either side.
const GUARDS: usize = 32;

pub struct Guarded<T> {
    all: Vec<T>,
    before: Vec<T>,
}

impl<T: Copy + Debug + PartialEq + From<u8>> Guarded<T> {
    pub fn new(numbers: &mut Numbers, row: &[T]) -> Guarded<T> {
        let mut guards = || numbers.bytes(GUARDS).into_iter().map(T::from);
        let mut all: Vec<T> = guards().collect();
        all.extend(row);
        all.extend(guards());
        let before = all.clone();
        Guarded { all, before }
    }

    pub fn row(&mut self) -> &mut [T] {
        let end = self.all.len() - GUARDS;
        &mut self.all[GUARDS..end]
    }

    /// That the row now begins so, and that every other entry is what it was, guards too. What is there
    /// now is then what was.
    pub fn assert_left(&mut self, front: &[T]) {
        self.before[GUARDS..GUARDS + front.len()].copy_from_slice(front);
        assert_eq!(self.all, self.before);
    }
}
