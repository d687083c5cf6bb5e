//! Gain curves of likelihoods and the permutation test over them.
use crate::refusal::unless;
use crate::{ffi, Curves, Permutations, Refusal, Settings, Tested};

/// The gain curve of two rows of likelihoods, into `curve`. Refusals: 4, 7, 12.
pub fn gain_from_likelihoods(l0: &[f64], l1: &[f64], curve: &mut [f64]) -> Result<(), Refusal> {
    let no = unsafe {
        ffi::changeforest_gain_from_likelihoods(
            l0.as_ptr(),
            l0.len(),
            l1.as_ptr(),
            l1.len(),
            curve.as_mut_ptr(),
            curve.len(),
        )
    };
    unless(no, ())
}

/// How many permutations reach the observed maximum, counted from 1, their share, and whether it is significant. Reads m, closed
/// and alpha. Refusals: 2, 3 (alpha), 4, 9, 11, 12.
pub fn permutation_test(
    curves: Curves,
    permutations: Permutations,
    maximum: f64,
    settings: &Settings,
) -> Result<Tested, Refusal> {
    let Curves { deltas: [d0, d1, d2], bases: [b0, b1, b2], count } = curves;
    let mut found = Tested { counter: 0, p_value: 0.0, significant: false };
    let no = unsafe {
        ffi::changeforest_permutation_test(
            d0.as_ptr(),
            d0.len(),
            d1.as_ptr(),
            d1.len(),
            d2.as_ptr(),
            d2.len(),
            b0,
            b1,
            b2,
            count,
            permutations.entries.as_ptr(),
            permutations.entries.len(),
            permutations.count,
            settings.m,
            settings.closed,
            settings.alpha,
            maximum,
            &mut found.counter,
            &mut found.p_value,
            &mut found.significant,
        )
    };
    unless(no, found)
}
