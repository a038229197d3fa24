//! A buffer that shows whether something was written past its ends.

/// The cells before and after. They are an odd number, so that the buffer is not aligned beyond its type.
const WALL: usize = 17;

/// A buffer of junk between two walls of junk.
pub struct Walled<T> {
    cells: Vec<T>,
    junk: T,
}

impl<T: Copy + PartialEq> Walled<T> {
    pub fn new(length: usize, junk: T) -> Walled<T> {
        Walled { cells: vec![junk; length + 2 * WALL], junk }
    }

    pub fn buffer(&mut self) -> &mut [T] {
        let end = self.cells.len() - WALL;
        &mut self.cells[WALL..end]
    }

    pub fn walls_stand(&self) -> bool {
        let end = self.cells.len() - WALL;
        self.cells[..WALL].iter().chain(&self.cells[end..]).all(|cell| *cell == self.junk)
    }
}
