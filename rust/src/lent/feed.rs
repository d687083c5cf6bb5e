//! Rows while the deck feeds: prefix sums from cells in whatever lots arrive, and the tree over them.
use super::grown::counted;
use crate::refusal::unless;
use crate::{ffi, Counts, Lists, Node, Refusal, Settings, State};

/// A run of which no cell is taken. Of `sums` the first `columns` entries take zeros; room is asked for the whole run,
/// `(rows + 1) * columns`. Refusals: 1, 7.
pub fn open(rows: usize, columns: usize, sums: &mut [f64]) -> Result<State, Refusal> {
    let mut count = 0;
    let no = unsafe { ffi::changeforest_open(rows, columns, sums.as_mut_ptr(), sums.len(), &mut count) };
    unless(no, State { rows, columns, count })
}

/// The state after a lot of cells, which may end anywhere in a row or be empty. `sums` takes their prefix sums, behind those of the
/// `count` before; a lot that is refused takes nothing, and the run may go on. Room: as for [`open`]. Refusals: 1, 4, 7, 13.
pub fn feed(lot: &[f64], state: State, sums: &mut [f64]) -> Result<State, Refusal> {
    let State { rows, columns, mut count } = state;
    let no = unsafe {
        ffi::changeforest_feed(lot.as_ptr(), lot.len(), rows, columns, sums.as_mut_ptr(), sums.len(), &mut count)
    };
    unless(no, State { count, ..state })
}

/// Whether all cells of the run were taken. A run that is closed too early is open as before. Refusals: 1, 13, 14.
pub fn close(state: State) -> Result<(), Refusal> {
    let no = unsafe { ffi::changeforest_close(state.rows, state.columns, state.count) };
    unless(no, ())
}

/// The memory that a fed run's tree is grown in: that of [`TreeRoom`](super::TreeRoom) but for the sums, which are only read.
#[derive(Debug, Default)]
pub struct FedRoom<'a> {
    pub rows: &'a mut [usize],
    pub gains: &'a mut [f64],
    pub nodes: &'a mut [Node],
    pub cuts: &'a mut [usize],
}

/// The tree as [`tree`](super::tree) grows it, over `sums` in place of a matrix. These are what [`feed`] left of all the run's cells, or
/// any others, NaN too; of them the first `(rows + 1) * columns` are read. Reads what `tree` does, and takes the stack that it does.
/// Refusals: 1, 2, 3 (threshold), 5, 6, 7, 8 (draws), 13, 14; 0 where there is no such thread.
pub fn fed_tree(
    sums: &[f64],
    state: State,
    settings: &Settings,
    lists: Lists,
    room: FedRoom,
) -> Result<Counts, Refusal> {
    let barred = settings.barred();
    counted(state.rows, settings, |counts| unsafe {
        ffi::changeforest_fed_tree(
            sums.as_ptr(),
            sums.len(),
            state.rows,
            state.columns,
            state.count,
            settings.m,
            settings.closed,
            settings.threshold,
            barred.as_ptr(),
            barred.len(),
            lists.layers.as_ptr(),
            lists.layers.len(),
            lists.draws.as_ptr(),
            lists.draws.len(),
            lists.most,
            room.rows.as_mut_ptr(),
            room.rows.len(),
            room.gains.as_mut_ptr(),
            room.gains.len(),
            room.nodes.as_mut_ptr(),
            room.nodes.len(),
            room.cuts.as_mut_ptr(),
            room.cuts.len(),
            counts.as_mut_ptr(),
            counts.len(),
        )
    })
}
