//! The declarations of include/changeforest.h, which says what each function answers and what its caller guarantees.
use crate::Node;

#[rustfmt::skip]
extern "C" {
    pub fn changeforest_minimal_segment_length(relative: f64, n: usize, m: *mut usize) -> u32;
    pub fn changeforest_nearest_f32(x: f64) -> f32;
    pub fn changeforest_split_candidates(
        n: usize, m: usize, closed: bool, forbidden: *const usize, forbidden_len: usize, start: usize, stop: usize,
        rows: *mut usize, rows_len: usize, count: *mut usize,
    ) -> u32;
    pub fn changeforest_gain(
        cells: *const f64, cells_len: usize, n: usize, d: usize, start: usize, stop: usize, split: usize,
        sums: *mut f64, sums_len: usize, gain: *mut f64,
    ) -> u32;
    pub fn changeforest_find_best_split(
        cells: *const f64, cells_len: usize, n: usize, d: usize, m: usize, closed: bool,
        forbidden: *const usize, forbidden_len: usize, start: usize, stop: usize, sums: *mut f64, sums_len: usize,
        split: *mut usize, gain: *mut f64,
    ) -> u32;
    pub fn changeforest_stored_segments(
        cells: *const f64, cells_len: usize, n: usize, d: usize, m: usize, closed: bool,
        forbidden: *const usize, forbidden_len: usize, layers: *const f64, layers_len: usize,
        draws: *const usize, draws_len: usize, w: usize,
        sums: *mut f64, sums_len: usize, rows: *mut usize, rows_len: usize, gains: *mut f64, gains_len: usize,
        count: *mut usize,
    ) -> u32;
    pub fn changeforest_tree(
        cells: *const f64, cells_len: usize, n: usize, d: usize, m: usize, closed: bool, threshold: f64,
        forbidden: *const usize, forbidden_len: usize, layers: *const f64, layers_len: usize,
        draws: *const usize, draws_len: usize, w: usize,
        sums: *mut f64, sums_len: usize, rows: *mut usize, rows_len: usize, gains: *mut f64, gains_len: usize,
        nodes: *mut Node, nodes_len: usize, cuts: *mut usize, cuts_len: usize, counts: *mut usize, counts_len: usize,
    ) -> u32;
    pub fn changeforest_open(n: usize, d: usize, sums: *mut f64, sums_len: usize, count: *mut usize) -> u32;
    pub fn changeforest_feed(
        lot: *const f64, lot_len: usize, n: usize, d: usize, sums: *mut f64, sums_len: usize, count: *mut usize,
    ) -> u32;
    pub fn changeforest_close(n: usize, d: usize, count: usize) -> u32;
    pub fn changeforest_fed_tree(
        sums: *const f64, sums_len: usize, n: usize, d: usize, count: usize, m: usize, closed: bool, threshold: f64,
        forbidden: *const usize, forbidden_len: usize, layers: *const f64, layers_len: usize,
        draws: *const usize, draws_len: usize, w: usize,
        rows: *mut usize, rows_len: usize, gains: *mut f64, gains_len: usize,
        nodes: *mut Node, nodes_len: usize, cuts: *mut usize, cuts_len: usize, counts: *mut usize, counts_len: usize,
    ) -> u32;
    pub fn changeforest_why(
        cells: *const f64, cells_len: usize, n: usize, d: usize, m: usize, closed: bool, threshold: f64,
        forbidden: *const usize, forbidden_len: usize, layers: *const f64, layers_len: usize,
        draws: *const usize, draws_len: usize, w: usize, row: usize,
        sums: *mut f64, sums_len: usize, rows: *mut usize, rows_len: usize, gains: *mut f64, gains_len: usize,
        text: *mut u8, text_len: usize, reason: *mut u32, start: *mut usize, stop: *mut usize,
        kind: *mut usize, number: *mut usize, length: *mut usize, a: *mut usize, b: *mut usize, gain: *mut f64,
    ) -> u32;
    pub fn changeforest_ordering(
        cells: *const f64, cells_len: usize, n: usize, d: usize, ordering: *mut u32, ordering_len: usize,
        distances: *mut f64, distances_len: usize,
    ) -> u32;
    pub fn changeforest_predict(
        cells: *const f64, cells_len: usize, n: usize, d: usize, start: usize, stop: usize, split: usize,
        ordering: *mut u32, ordering_len: usize, distances: *mut f64, distances_len: usize,
        predictions: *mut f64, predictions_len: usize,
    ) -> u32;
    pub fn changeforest_gain_from_likelihoods(
        l0: *const f64, l0_len: usize, l1: *const f64, l1_len: usize, curve: *mut f64, curve_len: usize,
    ) -> u32;
    pub fn changeforest_pick(
        curve: *const f64, curve_len: usize, n: usize, m: usize, closed: bool,
        forbidden: *const usize, forbidden_len: usize, start: usize, stop: usize, guess: usize,
        split: *mut usize, gain: *mut f64,
    ) -> u32;
    pub fn changeforest_guesses(
        n: usize, m: usize, closed: bool, given: bool, forbidden: *const usize, forbidden_len: usize,
        start: usize, stop: usize, first: *mut usize, second: *mut usize, third: *mut usize, count: *mut usize,
    ) -> u32;
    pub fn changeforest_permutation_test(
        deltas0: *const f64, deltas0_len: usize, deltas1: *const f64, deltas1_len: usize,
        deltas2: *const f64, deltas2_len: usize, base0: f64, base1: f64, base2: f64, k: usize,
        permutations: *const usize, permutations_len: usize, p: usize, m: usize, closed: bool,
        alpha: f64, maximum: f64, counter: *mut usize, p_value: *mut f64, significant: *mut bool,
    ) -> u32;
}
