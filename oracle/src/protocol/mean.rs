//! `cand`, `gain` and `search`.

use crate::text::{bits, rows, values};
use crate::{Capacities, Fields, Kind, Slice};

pub type Forbidden = Option<Vec<usize>>;

pub struct Matrix {
    pub n: usize,
    pub d: usize,
    pub cells: Vec<f64>,
}

/// The shortest part that a split may leave: m rows, on the right one more unless the end is closed.
#[derive(Clone, Copy)]
pub struct Shortest {
    pub m: usize,
    pub closed: bool,
}

/// A segment of a run of n rows, and what bars rows of it.
pub struct Segment {
    pub n: usize,
    pub shortest: Shortest,
    pub forbidden: Forbidden,
    pub start: usize,
    pub stop: usize,
}

pub struct Cand {
    pub segment: Segment,
}

impl Kind for Cand {
    /// N M F START STOP
    fn read(fields: &mut Fields) -> Option<Self> {
        let n = fields.number()?;
        Some(Cand { segment: fields.segment(n)? })
    }

    /// Candidates.
    fn lends(&self, capacities: &Capacities) -> Vec<Slice> {
        vec![capacities.candidates(&self.segment)]
    }
}

impl Cand {
    pub fn answer(candidates: &[usize]) -> String {
        format!(" {}{}", candidates.len(), rows(candidates))
    }
}

pub struct Gain {
    pub matrix: Matrix,
    pub start: usize,
    pub stop: usize,
    pub split: usize,
}

impl Kind for Gain {
    /// N D START STOP SPLIT CELLS
    fn read(fields: &mut Fields) -> Option<Self> {
        let size = fields.size()?;
        let (start, stop, split) = (fields.number()?, fields.number()?, fields.number()?);
        Some(Gain { matrix: fields.matrix(size)?, start, stop, split })
    }

    /// Sums.
    fn lends(&self, capacities: &Capacities) -> Vec<Slice> {
        vec![capacities.sums(&self.matrix)]
    }
}

impl Gain {
    pub fn answer(gain: f64, sums: &[f64]) -> String {
        format!(" {} sums{}", bits(gain), values(sums))
    }
}

pub struct Search {
    pub matrix: Matrix,
    pub segment: Segment,
}

impl Kind for Search {
    /// N D M F START STOP CELLS
    fn read(fields: &mut Fields) -> Option<Self> {
        let size = fields.size()?;
        let segment = fields.segment(size.0)?;
        Some(Search { matrix: fields.matrix(size)?, segment })
    }

    /// Sums.
    fn lends(&self, capacities: &Capacities) -> Vec<Slice> {
        vec![capacities.sums(&self.matrix)]
    }
}

impl Search {
    pub fn answer(split: usize, gain: f64) -> String {
        format!(" {split} {}", bits(gain))
    }
}
