//! The two-step search: guesses, and the pick from a curve.
use std::ops::Range;

use crate::refusal::unless;
use crate::{ffi, Guesses, Refusal, Settings, Split};

/// The candidate of a segment of a run of `rows` rows with the greatest value of the curve, and that value; `guess` where there is none.
/// Reads m, closed and forbidden. Refusals: 1 (rows alone), 2, 5, 8, 9, 10, 12.
pub fn pick(
    curve: &[f64],
    rows: usize,
    segment: Range<usize>,
    guess: usize,
    settings: &Settings,
) -> Result<Split, Refusal> {
    let barred = settings.barred();
    let (mut split, mut gain) = (0, 0.0);
    let no = unsafe {
        ffi::changeforest_pick(
            curve.as_ptr(),
            curve.len(),
            rows,
            settings.m,
            settings.closed,
            barred.as_ptr(),
            barred.len(),
            segment.start,
            segment.end,
            guess,
            &mut split,
            &mut gain,
        )
    };
    unless(no, Split { split, gain })
}

/// The guesses for a segment of a run of `rows` rows. Reads m, closed and forbidden, of which an empty list is not the same as `None`.
/// Refusals: 1 (rows alone), 2, 5, 8, 9, 10.
pub fn guesses(rows: usize, segment: Range<usize>, settings: &Settings) -> Result<Guesses, Refusal> {
    let barred = settings.barred();
    let ([mut first, mut second, mut third], mut count) = ([0; 3], 0);
    let no = unsafe {
        ffi::changeforest_guesses(
            rows,
            settings.m,
            settings.closed,
            settings.forbidden.is_some(),
            barred.as_ptr(),
            barred.len(),
            segment.start,
            segment.end,
            &mut first,
            &mut second,
            &mut third,
            &mut count,
        )
    };
    unless(no, Guesses { rows: [first, second, third], count })
}
