//! Candidates, gains and the search of one segment.
use std::ops::Range;

use crate::refusal::unless;
use crate::{ffi, Matrix, Refusal, Settings, Split};

/// The candidates of a segment of a run of `rows` rows, into `candidates`; how many. Reads m, closed and forbidden.
/// Refusals: 1 (rows alone), 2, 5, 7, 8, 9, 10.
pub fn split_candidates(
    rows: usize,
    segment: Range<usize>,
    settings: &Settings,
    candidates: &mut [usize],
) -> Result<usize, Refusal> {
    let barred = settings.barred();
    let mut count = 0;
    let no = unsafe {
        ffi::changeforest_split_candidates(
            rows,
            settings.m,
            settings.closed,
            barred.as_ptr(),
            barred.len(),
            segment.start,
            segment.end,
            candidates.as_mut_ptr(),
            candidates.len(),
            &mut count,
        )
    };
    unless(no, count)
}

/// The gain of cutting the segment at `split`; `sums` takes the prefix sums. Refusals: 1, 4, 7, 8.
pub fn gain(matrix: Matrix, segment: Range<usize>, split: usize, sums: &mut [f64]) -> Result<f64, Refusal> {
    let mut gain = 0.0;
    let no = unsafe {
        ffi::changeforest_gain(
            matrix.cells.as_ptr(),
            matrix.cells.len(),
            matrix.rows,
            matrix.columns,
            segment.start,
            segment.end,
            split,
            sums.as_mut_ptr(),
            sums.len(),
            &mut gain,
        )
    };
    unless(no, gain)
}

/// The best split of the segment and its gain; `sums` takes the prefix sums. Reads m, closed and forbidden.
/// Refusals: 1, 2, 4, 5, 7, 8, 9, 10.
pub fn find_best_split(
    matrix: Matrix,
    segment: Range<usize>,
    settings: &Settings,
    sums: &mut [f64],
) -> Result<Split, Refusal> {
    let barred = settings.barred();
    let (mut split, mut gain) = (0, 0.0);
    let no = unsafe {
        ffi::changeforest_find_best_split(
            matrix.cells.as_ptr(),
            matrix.cells.len(),
            matrix.rows,
            matrix.columns,
            settings.m,
            settings.closed,
            barred.as_ptr(),
            barred.len(),
            segment.start,
            segment.end,
            sums.as_mut_ptr(),
            sums.len(),
            &mut split,
            &mut gain,
        )
    };
    unless(no, Split { split, gain })
}
