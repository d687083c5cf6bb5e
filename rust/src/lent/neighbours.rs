//! Each row's order of all rows, and what its nearest neighbours foretell.
use std::ops::Range;

use crate::refusal::unless;
use crate::{ffi, Matrix, Refusal};

/// Each row's order of all rows into `ordering`; `distances` takes the last row's. Refusals: 1, 4, 7.
pub fn ordering(matrix: Matrix, ordering: &mut [u32], distances: &mut [f64]) -> Result<(), Refusal> {
    let no = unsafe {
        ffi::changeforest_ordering(
            matrix.cells.as_ptr(),
            matrix.cells.len(),
            matrix.rows,
            matrix.columns,
            ordering.as_mut_ptr(),
            ordering.len(),
            distances.as_mut_ptr(),
            distances.len(),
        )
    };
    unless(no, ())
}

/// The memory that a segment's rows are foretold in: ordering `rows * rows`, distances `rows`, predictions an entry for each row of the
/// segment.
#[derive(Debug, Default)]
pub struct PredictRoom<'a> {
    /// Filled as by [`ordering`].
    pub ordering: &'a mut [u32],
    /// Filled as by [`ordering`].
    pub distances: &'a mut [f64],
    pub predictions: &'a mut [f64],
}

/// For each row of the segment the share of its neighbours there at or past `split`. The row itself is none of them, wherever it stands
/// in its order. Refusals: 1, 4, 7, 8.
pub fn predict(matrix: Matrix, segment: Range<usize>, split: usize, room: PredictRoom) -> Result<(), Refusal> {
    let no = unsafe {
        ffi::changeforest_predict(
            matrix.cells.as_ptr(),
            matrix.cells.len(),
            matrix.rows,
            matrix.columns,
            segment.start,
            segment.end,
            split,
            room.ordering.as_mut_ptr(),
            room.ordering.len(),
            room.distances.as_mut_ptr(),
            room.distances.len(),
            room.predictions.as_mut_ptr(),
            room.predictions.len(),
        )
    };
    unless(no, ())
}
