//! Stands for `classifier/mod.rs`, which isn't in the text; the random forest is left out.

mod classifier;
mod knn;

pub use classifier::Classifier;
pub use knn::kNN;
