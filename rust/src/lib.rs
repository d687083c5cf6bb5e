//! Haspgarnet's proved segmentation core for Rust hosts: safe functions over `libchangeforest_c.a`.
//!
//! ```
//! use haspgarnet_changeforest::{owned, Matrix, Segments, Settings};
//!
//! let cells = [3.0, 4.0, 3.0, 4.0, 9.0, 8.0, 9.0, 8.0];
//! let readings = Matrix { cells: &cells, rows: 8, columns: 1 };
//! let settings = Settings { m: 1, threshold: 10.0, ..Settings::default() };
//! assert_eq!(owned::tree(readings, &settings, Segments::None)?.cuts, [4]);
//! # Ok::<(), haspgarnet_changeforest::Refusal>(())
//! ```
//!
//! [`lent`] has every function of include/changeforest.h over memory that the caller lends; [`owned`] allocates the room itself. Every
//! value of the arguments is allowed: it is answered, or refused by a number. A segment is a range of rows of the run; one that is no
//! range of the run is refused by 8. A run whose cells come in lots is an [`owned::Feed`]; over lent memory each call answers with the
//! [`State`] for the next.
//!
//! A slice hands over its own pointer and length, and `&mut` slices never overlap others: so what the header asks of a caller's pointers
//! and memory holds for every use of these functions. What it asks of the stack is still the caller's to see to: 16 KiB; up to 144 KiB
//! for a tree, as one that can be deeper than 128 levels is grown on a thread of its own; 96 KiB for a permutation test whose first curve
//! is longer than 4,096.

mod answers;
mod asked;
mod ffi;
pub mod lent;
pub mod owned;
mod refusal;

pub use answers::{Counts, Guesses, Node, Origin, Record, Split, Tested, Tree, Why};
pub use asked::{Curves, Lists, Matrix, Permutations, Segments, Settings, State};
pub use refusal::Refusal;
