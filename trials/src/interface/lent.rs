//! Arrays that are lent to the library, between guards.

use crate::generate::Rng;

/// An element of an array that is lent to the library.
pub trait Element: Copy + PartialEq {
    fn random(rng: &mut Rng) -> Self;
}

impl Element for u8 {
    fn random(rng: &mut Rng) -> u8 {
        rng.byte()
    }
}

impl Element for u64 {
    fn random(rng: &mut Rng) -> u64 {
        rng.next()
    }
}

/// Random contents of an array.
pub fn noise<T: Element>(rng: &mut Rng, length: usize) -> Vec<T> {
    (0..length).map(|_| T::random(rng)).collect()
}

/// An array between random guards.
pub struct Lent<T> {
    name: &'static str,
    cells: Vec<T>,
    before: Vec<T>,
    start: usize,
    pub length: usize,
}

impl<T: Element> Lent<T> {
    pub fn new(rng: &mut Rng, name: &'static str, contents: &[T]) -> Lent<T> {
        let start = rng.length(4, 20);
        let behind = rng.length(4, 20);
        let mut cells = noise(rng, start);
        cells.extend(contents);
        cells.extend(noise::<T>(rng, behind));
        Lent {
            name,
            before: cells.clone(),
            cells,
            start,
            length: contents.len(),
        }
    }

    pub fn pointer(&mut self) -> *mut T {
        self.cells[self.start..].as_mut_ptr()
    }

    /// The contents after a call that may write them.
    pub fn written(self) -> Result<Vec<T>, String> {
        let end = self.start + self.length;
        if self.cells[..self.start] != self.before[..self.start]
            || self.cells[end..] != self.before[end..]
        {
            return Err(format!("wrote outside the array `{}`", self.name));
        }
        Ok(self.cells[self.start..end].to_vec())
    }

    /// Checks an array that the call only reads.
    pub fn unchanged(self) -> Result<(), String> {
        if self.cells == self.before {
            Ok(())
        } else {
            Err(format!("wrote into or around the array `{}`", self.name))
        }
    }
}
