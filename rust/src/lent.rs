//! The entry points over lent memory. Room and refusals are those of include/changeforest.h; a refusal leaves every slice as it was, and
//! an answer leaves the entries that it does not tell.
//!
//! What is stored before a tree is grown is given as [`Lists`](crate::Lists), which [`Segments`](crate::Segments) turns into.
//!
//! Where a call takes more than two slices they are fields of one struct. A slice that is not given is empty, and is refused by 7 where
//! entries of it are asked: so a later field breaks no caller who ends in `..TreeRoom::default()`.

mod curves;
mod feed;
mod grown;
mod lengths;
mod mean;
mod neighbours;
mod tree;
mod two_step;
mod why;

pub use curves::{gain_from_likelihoods, permutation_test};
pub use feed::{close, fed_tree, feed, open, FedRoom};
pub use lengths::{minimal_segment_length, nearest_f32};
pub use mean::{find_best_split, gain, split_candidates};
pub use neighbours::{ordering, predict, PredictRoom};
pub use tree::{stored_segments, tree, SegmentsRoom, TreeRoom};
pub use two_step::{guesses, pick};
pub use why::{why, WhyRoom};
