//! Rows while the deck feeds: which cells are taken is a second reading of document 02 ("Rows while the
//! deck feeds"), by the rules; their sums, and the tree over lent ones, are the Rust's.

use crate::{original, rules};
use protocol::{same, FedTree, Feed, Grown, Lot, Matrix, State, Step, Taken};

/// How each step is answered, and closing in the end; and the room then: "the sums .. equal those of the
/// whole matrix" that the cells taken make, and behind them it is as it was found.
pub fn feed(case: &Feed) -> (Vec<Taken>, Taken, Vec<f64>) {
    let mut cells = vec![];
    let mut told: Vec<Taken> = vec![];
    for step in case.steps.iter().chain([&Step::Close]) {
        let state = State { n: case.n, d: case.d, count: cells.len() };
        let verdict = match step {
            Step::Lot(lot) => rules::fed(state, lot, case.sums.len()),
            Step::Close => rules::closed(state),
        };
        let refusal = verdict.lowest();
        if refusal.is_none() {
            cells.extend(step.cells());
        }
        told.push(refusal.map_or(Ok(cells.len()), Err));
    }
    let mut room = case.sums.clone();
    let sums = sums_of(&cells, case.d);
    room[..sums.len()].copy_from_slice(&sums);
    let closing = told.pop().expect("it is closed in the end");
    (told, closing, room)
}

/// The sums of cells that may end within a row: those of whole rows, up to the last cell's.
fn sums_of(cells: &[f64], d: usize) -> Vec<f64> {
    let n = cells.len().div_ceil(d);
    let mut whole = cells.to_vec();
    whole.resize(n * d, 0.0);
    let mut sums = original::sums(&Matrix { n, d, cells: whole });
    sums.truncate(d + cells.len());
    sums
}

/// The room after a lot: the sums that it is added to are handed to the Rust as the row before it. (0 and
/// they and 0 are they; but for -0, which makes no difference to what is added to it, as 0 + x is never -0.)
pub fn lot(case: &Lot) -> Vec<f64> {
    let State { d, count, .. } = case.state;
    let before = &case.sums[count..count + d];
    let sums = sums_of(&[before, &case.cells].concat(), d);
    let mut room = case.sums.clone();
    room[count + d..][..case.cells.len()].copy_from_slice(&sums[2 * d..]);
    room
}

pub fn tree(case: &FedTree) -> Grown {
    original::tree_over(&case.tree, case.run_sums().expect("an admitted case lends them"))
}

/// What is told of the matrix's tree, where a matrix has these sums, as the Rust works them out.
pub fn of_its_matrix(case: &FedTree) -> Option<String> {
    let matrix = case.matrix()?;
    let has_them = same(&original::sums(&matrix), case.run_sums()?);
    has_them.then(|| FedTree::answer(&original::tree_of(&case.tree, &matrix)))
}
