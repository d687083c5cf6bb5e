//! `order` and `knn`.

use crate::text::{all, values};
use crate::{Capacities, Fields, Kind, Matrix, Slice};

pub struct Order {
    pub matrix: Matrix,
}

impl Kind for Order {
    /// N D CELLS
    fn read(fields: &mut Fields) -> Option<Self> {
        let size = fields.size()?;
        Some(Order { matrix: fields.matrix(size)? })
    }

    /// Ordering, distances.
    fn lends(&self, capacities: &Capacities) -> Vec<Slice> {
        capacities.ordering(self.matrix.n).into()
    }
}

impl Order {
    pub fn answer(ordering: &[u32], distances: &[f64]) -> String {
        format!("{} dist{}", all(ordering, |row| row.to_string()), values(distances))
    }
}

pub struct Knn {
    pub matrix: Matrix,
    pub start: usize,
    pub stop: usize,
    pub split: usize,
}

impl Kind for Knn {
    /// N D START STOP SPLIT CELLS
    fn read(fields: &mut Fields) -> Option<Self> {
        let size = fields.size()?;
        let (start, stop, split) = (fields.number()?, fields.number()?, fields.number()?);
        Some(Knn { matrix: fields.matrix(size)?, start, stop, split })
    }

    /// Ordering, distances, output.
    fn lends(&self, capacities: &Capacities) -> Vec<Slice> {
        let output = capacities.predictions(self.start, self.stop);
        capacities.ordering(self.matrix.n).into_iter().chain([output]).collect()
    }
}

impl Knn {
    pub fn answer(predictions: &[f64]) -> String {
        values(predictions)
    }
}
