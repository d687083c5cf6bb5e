//! Memory to lend, filled with a pattern that shows where it was written, or as a case finds it.

use haspgarnet_changeforest::{owned, Matrix, Node, Segments, Settings};
use std::ops::Range;

/// None of the first three is one byte repeated, so that an entry that is shifted shows; the last is in no
/// text.
const VALUE: f64 = -3.25e-200;
const NUMBER: usize = 0xa5a5_a5a5_dead_beef;
const PLACE: u32 = 0xdead_beef;
const BYTE: u8 = 0xdb;

/// So many entries stand behind a lent slice, to show what was written past its end.
const BEHIND: usize = 3;

pub struct Lent<T> {
    entries: Vec<T>,
    length: usize,
    pattern: T,
}

impl<T: Copy + PartialEq> Lent<T> {
    fn filled(length: usize, pattern: T) -> Self {
        Lent { entries: vec![pattern; length + BEHIND], length, pattern }
    }

    /// The slice for a call to write in.
    pub fn slice(&mut self) -> &mut [T] {
        &mut self.entries[..self.length]
    }

    /// The first entries.
    pub fn told(&self, count: usize) -> &[T] {
        &self.entries[..count.min(self.length)]
    }

    /// Whether all entries past the first `told` are as they were.
    pub fn kept_past(&self, told: usize) -> bool {
        self.entries.iter().skip(told).all(|entry| *entry == self.pattern)
    }
}

/// Sums as a case has them, of that length exactly.
pub struct Found {
    entries: Vec<f64>,
    before: Vec<f64>,
}

impl Found {
    pub fn of(sums: &[f64]) -> Found {
        let entries: Vec<f64> = sums.iter().copied().chain([VALUE; BEHIND]).collect();
        Found { before: entries.clone(), entries }
    }

    /// The slice for a call.
    pub fn slice(&mut self) -> &mut [f64] {
        let length = self.entries.len() - BEHIND;
        &mut self.entries[..length]
    }

    /// All of them.
    pub fn sums(&self) -> &[f64] {
        &self.entries[..self.entries.len() - BEHIND]
    }

    /// Whether the last call left all entries but those told as they were, a NaN's bits too.
    pub fn kept_but(&mut self, told: Range<usize>) -> bool {
        let same = |place: usize| self.entries[place].to_bits() == self.before[place].to_bits();
        let kept = (0..self.entries.len()).all(|place| told.contains(&place) || same(place));
        for place in told.start..told.end.min(self.entries.len()) {
            self.before[place] = self.entries[place];
        }
        kept
    }
}

pub fn values(length: usize) -> Lent<f64> {
    Lent::filled(length, VALUE)
}

pub fn numbers(length: usize) -> Lent<usize> {
    Lent::filled(length, NUMBER)
}

pub fn places(length: usize) -> Lent<u32> {
    Lent::filled(length, PLACE)
}

pub fn bytes(length: usize) -> Lent<u8> {
    Lent::filled(length, BYTE)
}

/// A node whose choice is a draw's, from a tree that is cut, with ends and parts that no tree has.
pub fn nodes(length: usize) -> Lent<Node> {
    let readings = Matrix { cells: &[0.0, 0.0, 8.0, 8.0, 0.0, 0.0, 0.0, 0.0], rows: 8, columns: 1 };
    let settings = Settings { m: 1, threshold: 40.0, ..Settings::default() };
    let drawn = Segments::Draws { pairs: &[4, 0, 0, 4], most: 1 };
    let grown = owned::tree(readings, &settings, drawn).map(|tree| tree.nodes);
    let mut node = grown.unwrap_or_default().first().copied().unwrap_or_default();
    (node.start, node.stop, node.left, node.right) = (NUMBER, NUMBER - 1, NUMBER - 2, NUMBER - 3);
    Lent::filled(length, node)
}
