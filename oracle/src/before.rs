//! The Rust as it was before what document 02 asks to be otherwise: the crate `as_before`.

use as_before::classifier::kNN;
use as_before::{Classifier, Control};
use ndarray::ArrayView2;
use protocol::Matrix;

/// The predictions where the first of each row's order is dropped.
pub fn knn(matrix: &Matrix, start: usize, stop: usize, split: usize) -> Vec<f64> {
    let view = ArrayView2::from_flat((matrix.n, matrix.d), &matrix.cells);
    let control = Control::default();
    let predictions = kNN::new(&view, &control).predict(start, stop, split);
    predictions.iter().copied().collect()
}
