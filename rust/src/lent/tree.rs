//! Stored segments and the tree of a run.
use super::grown::counted;
use crate::refusal::unless;
use crate::{ffi, Counts, Lists, Matrix, Node, Refusal, Settings};

/// The memory that segments are stored in. With T the most that draws may leave, or where there are none the layers' segments summed:
/// sums `(rows + 1) * columns`, rows `5 * T`, gains T.
#[derive(Debug, Default)]
pub struct SegmentsRoom<'a> {
    /// Takes the prefix sums.
    pub sums: &'a mut [f64],
    /// Start, stop, best split, kind and number of each record, five entries a record; [`Origin::of`](crate::Origin::of) reads the last
    /// two.
    pub rows: &'a mut [usize],
    /// The gain of each record.
    pub gains: &'a mut [f64],
}

/// The records that searching the lists' segments stores; how many. Reads m, closed and forbidden.
/// Refusals: 1, 2, 4, 5, 6, 7, 8 (draws).
pub fn stored_segments(
    matrix: Matrix,
    settings: &Settings,
    lists: Lists,
    room: SegmentsRoom,
) -> Result<usize, Refusal> {
    let barred = settings.barred();
    let mut count = 0;
    let no = unsafe {
        ffi::changeforest_stored_segments(
            matrix.cells.as_ptr(),
            matrix.cells.len(),
            matrix.rows,
            matrix.columns,
            settings.m,
            settings.closed,
            barred.as_ptr(),
            barred.len(),
            lists.layers.as_ptr(),
            lists.layers.len(),
            lists.draws.as_ptr(),
            lists.draws.len(),
            lists.most,
            room.sums.as_mut_ptr(),
            room.sums.len(),
            room.rows.as_mut_ptr(),
            room.rows.len(),
            room.gains.as_mut_ptr(),
            room.gains.len(),
            &mut count,
        )
    };
    unless(no, count)
}

/// The memory that a tree is grown in. With T as in [`SegmentsRoom`] and B the greater of 1 and `2 * floor((rows - 1) / m) - 1`, with a
/// closed end `2 * floor(rows / m) - 1`: sums `(rows + 1) * columns`, rows `5 * (T + B)`, gains `T + B`, nodes B, cuts `(B - 1) / 2`.
#[derive(Debug, Default)]
pub struct TreeRoom<'a> {
    /// Takes the prefix sums.
    pub sums: &'a mut [f64],
    /// The records as in [`SegmentsRoom`], the stored ones first.
    pub rows: &'a mut [usize],
    /// The gain of each record.
    pub gains: &'a mut [f64],
    /// The nodes in preorder.
    pub nodes: &'a mut [Node],
    /// The rows that are cut, from left to right.
    pub cuts: &'a mut [usize],
}

/// The tree of the run, over what [`stored_segments`] stores: how many nodes, records and cuts it has, and how many records were stored.
/// Reads m, closed, threshold and forbidden. A tree that can be deeper than 128 levels is grown on a thread of its own; one that can't
/// takes up to 144 KiB of the caller's stack. Refusals: 1, 2, 3 (threshold), 4, 5, 6, 7, 8 (draws); 0 where there is no such thread.
pub fn tree(matrix: Matrix, settings: &Settings, lists: Lists, room: TreeRoom) -> Result<Counts, Refusal> {
    let barred = settings.barred();
    counted(matrix.rows, settings, |counts| unsafe {
        ffi::changeforest_tree(
            matrix.cells.as_ptr(),
            matrix.cells.len(),
            matrix.rows,
            matrix.columns,
            settings.m,
            settings.closed,
            settings.threshold,
            barred.as_ptr(),
            barred.len(),
            lists.layers.as_ptr(),
            lists.layers.len(),
            lists.draws.as_ptr(),
            lists.draws.len(),
            lists.most,
            room.sums.as_mut_ptr(),
            room.sums.len(),
            room.rows.as_mut_ptr(),
            room.rows.len(),
            room.gains.as_mut_ptr(),
            room.gains.len(),
            room.nodes.as_mut_ptr(),
            room.nodes.len(),
            room.cuts.as_mut_ptr(),
            room.cuts.len(),
            counts.as_mut_ptr(),
            counts.len(),
        )
    })
}
