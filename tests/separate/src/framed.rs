//! Cells that a call is lent in the middle of others, which it has no business with.

use std::ops::Range;

/// Of two equal ones the cells around what is lent are equal, too.
#[derive(Clone, PartialEq)]
pub struct Framed<T> {
    pub memory: Vec<T>,
    lent: Range<usize>,
}

impl<T: Clone> Framed<T> {
    /// All of the memory but so many cells at its front and behind.
    pub fn within(memory: Vec<T>, front: usize, behind: usize) -> Framed<T> {
        let lent = front..memory.len() - behind;
        Framed { memory, lent }
    }

    /// Where the lent cells begin in the memory.
    pub fn front(&self) -> usize {
        self.lent.start
    }

    pub fn cells(&self) -> &[T] {
        &self.memory[self.lent.clone()]
    }

    pub fn cells_mut(&mut self) -> &mut [T] {
        &mut self.memory[self.lent.clone()]
    }

    /// The same memory, with only the first of the cells lent.
    pub fn first(&self, length: usize) -> Framed<T> {
        let lent = self.lent.start..self.lent.start + length;
        Framed { memory: self.memory.clone(), lent }
    }
}
