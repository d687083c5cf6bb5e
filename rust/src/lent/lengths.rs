//! The rounding that a caller may want: a relative length, the nearest f32.
use crate::refusal::unless;
use crate::{ffi, Refusal};

/// m from a length relative to a run of `rows` rows. Refusals: 1 (rows alone), 2.
pub fn minimal_segment_length(relative: f64, rows: usize) -> Result<usize, Refusal> {
    let mut m = 0;
    let no = unsafe { ffi::changeforest_minimal_segment_length(relative, rows, &mut m) };
    unless(no, m)
}

/// The f32 nearest to x. Refuses nothing.
pub fn nearest_f32(x: f64) -> f32 {
    unsafe { ffi::changeforest_nearest_f32(x) }
}
