//! The fields of a line, parted by single blanks, read one after another.

use crate::{Capacities, Forbidden, Lists, Matrix, Segment, Shortest, Step};
use std::mem::take;
use std::slice::Split;

// A number of the page has 64 bits.
const _: () = assert!(usize::BITS == 64);

pub struct Fields<'a> {
    words: Split<'a, u8, fn(&u8) -> bool>,
    capacities: Capacities,
    passed: bool,
    /// The prefix `closed`, until M is read with it.
    closed: bool,
}

impl<'a> Fields<'a> {
    pub(crate) fn of(words: &'a [u8], capacities: Capacities) -> Self {
        Fields {
            words: words.split(|byte| *byte == b' '),
            capacities,
            passed: false,
            closed: false,
        }
    }

    /// Whether a list that was read passes its capacity.
    pub(crate) fn passed(&self) -> bool {
        self.passed
    }

    /// Whether nothing is left, no prefix that the kind doesn't take either.
    pub(crate) fn at_end(mut self) -> bool {
        self.words.next().is_none() && !self.closed
    }

    /// Whether this word comes next, which is then passed over.
    pub(crate) fn next_is(&mut self, word: &[u8]) -> bool {
        let mut rest = self.words.clone();
        let is = rest.next() == Some(word);
        if is {
            self.words = rest;
        }
        is
    }

    /// The prefix `closed`, where it comes next.
    pub(crate) fn closed(&mut self) {
        self.closed = self.next_is(b"closed");
    }

    pub fn word(&mut self) -> Option<&'a [u8]> {
        self.words.next()
    }

    pub fn number(&mut self) -> Option<usize> {
        number(self.word()?)
    }

    pub fn value(&mut self) -> Option<f64> {
        value(self.word()?)
    }

    /// Reads `count` entries; a count is believed only as far as there are fields.
    fn entries<T>(&mut self, count: usize, entry: fn(&[u8]) -> Option<T>) -> Option<Vec<T>> {
        (0..count).map(|_| entry(self.word()?)).collect()
    }

    fn list<T>(&mut self, capacity: usize, entry: fn(&[u8]) -> Option<T>) -> Option<Vec<T>> {
        let count = self.number()?;
        let list = self.entries(count, entry)?;
        self.passed |= list.len() > capacity;
        Some(list)
    }

    /// As many values as `count` says, without a count of their own.
    pub fn counted(&mut self, count: usize) -> Option<Vec<f64>> {
        self.entries(count, value)
    }

    /// LAYERS, with no draws and W = 0.
    pub fn layers(&mut self) -> Option<Lists> {
        Some(Lists { layers: self.list(self.capacities.layers, value)?, ..Lists::default() })
    }

    /// LAYERS DRAWS W
    pub fn lists(&mut self) -> Option<Lists> {
        let layers = self.layers()?;
        let draws = self.list(self.capacities.draws, number)?;
        Some(Lists { draws, w: self.number()?, ..layers })
    }

    /// L0, L1, DELTAS or CURVE
    pub fn curve(&mut self) -> Option<Vec<f64>> {
        self.list(self.capacities.curve, value)
    }

    /// PERMS
    pub fn permutations(&mut self) -> Option<Vec<usize>> {
        self.list(self.capacities.permutations, number)
    }

    /// F
    pub fn forbidden(&mut self) -> Option<Forbidden> {
        if self.next_is(b"-") {
            return Some(None);
        }
        self.list(self.capacities.forbidden, number).map(Some)
    }

    /// M, under the prefix `closed` or without it.
    pub fn shortest(&mut self) -> Option<Shortest> {
        Some(Shortest { m: self.number()?, closed: take(&mut self.closed) })
    }

    /// M F START STOP, of a run of n rows.
    pub fn segment(&mut self, n: usize) -> Option<Segment> {
        Some(Segment {
            n,
            shortest: self.shortest()?,
            forbidden: self.forbidden()?,
            start: self.number()?,
            stop: self.number()?,
        })
    }

    /// N D
    pub fn size(&mut self) -> Option<(usize, usize)> {
        Some((self.number()?, self.number()?))
    }

    /// CELLS or LOT
    pub fn cells(&mut self) -> Option<Vec<f64>> {
        self.list(self.capacities.cells, value)
    }

    /// CELLS
    pub fn matrix(&mut self, (n, d): (usize, usize)) -> Option<Matrix> {
        Some(Matrix { n, d, cells: self.cells()? })
    }

    /// SUMS
    pub fn sums(&mut self) -> Option<Vec<f64>> {
        self.list(self.capacities.sums, value)
    }

    /// LOT, or the word `close`.
    fn step(&mut self) -> Option<Step> {
        match self.next_is(b"close") {
            true => Some(Step::Close),
            false => self.cells().map(Step::Lot),
        }
    }

    /// K LOT..
    pub fn steps(&mut self) -> Option<Vec<Step>> {
        let count = self.number()?;
        let steps: Vec<Step> = (0..count).map(|_| self.step()).collect::<Option<_>>()?;
        let cells: usize = steps.iter().map(|step| step.cells().len()).sum();
        self.passed |= steps.len() > self.capacities.lots || cells > self.capacities.cells;
        Some(steps)
    }
}

/// Decimal, 64 bits, without leading zeros.
fn number(field: &[u8]) -> Option<usize> {
    if field.is_empty() || (field.len() > 1 && field[0] == b'0') {
        return None;
    }
    let mut number: usize = 0;
    for byte in field {
        let digit = byte.is_ascii_digit().then(|| usize::from(byte - b'0'))?;
        number = number.checked_mul(10)?.checked_add(digit)?;
    }
    Some(number)
}

/// 16 lower-case hex digits.
pub fn value(field: &[u8]) -> Option<f64> {
    let lower = field.iter().all(|byte| matches!(byte, b'0'..=b'9' | b'a'..=b'f'));
    let digits = std::str::from_utf8(field).ok().filter(|_| lower && field.len() == 16)?;
    u64::from_str_radix(digits, 16).ok().map(f64::from_bits)
}
