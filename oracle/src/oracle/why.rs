//! Why a row is on the sheet or is not: a second reading of document 02 ("Why is row 212 not on the
//! sheet?"), which the Rust has nothing of. The tree, with where its choices come from, the candidates and
//! the gain are the Rust's.

use crate::{original, rules};
use protocol::{Forbidden, Node, Reason, Record, Segment, Shortest, Stored, Told, Tree, Why};

/// "it is a cut, and of which reached segment; or, within the uncut segment that holds it, the first that
/// applies".
pub fn why(case: &Why) -> Told {
    let Why { tree: tree @ Tree { stored, threshold }, row } = case;
    let grown = original::tree(tree);
    let node = reached(&grown.nodes, *row);
    let (start, stop) = (node.start, node.stop);
    let reason = match cut_by(node) {
        Some(choice) => Reason::Cut(choice.origin.text()),
        None => uncut(stored, *threshold, start, stop, *row),
    };
    Told { reason, start, stop }
}

/// From the whole run down, the segment that is cut at the row, or the uncut one that holds it.
fn reached(nodes: &[Node], row: usize) -> &Node {
    let mut node = &nodes[0];
    while let Some(choice) = cut_by(node).filter(|choice| choice.split != row) {
        let [left, right] = node.parts;
        node = &nodes[if row < choice.split { left } else { right }];
    }
    node
}

fn cut_by(node: &Node) -> Option<Record> {
    node.choice.filter(|_| node.significant)
}

/// "too near an end; barred, with the first listed pair that bars it; its gain is no number; its gain
/// doesn't exceed the threshold, with that gain". What is neither of the first two is a candidate of the
/// Rust's, and what is one isn't.
fn uncut(case: &Stored, threshold: f64, start: usize, stop: usize, row: usize) -> Reason {
    let near = is_near(case.shortest, start, stop, row);
    let pair = barring(&case.forbidden, row);
    let Stored { matrix, shortest, forbidden, .. } = case;
    let (n, shortest, forbidden) = (matrix.n, *shortest, forbidden.clone());
    let candidates = original::cand(&Segment { n, shortest, forbidden, start, stop });
    let is_candidate = candidates.is_ok_and(|rows| rows.contains(&row));
    assert!(is_candidate == (!near && pair.is_none()));
    if near {
        return Reason::Near;
    }
    if let Some((a, b)) = pair {
        return Reason::Barred(a, b);
    }
    let (gain, _) = original::gain(matrix, start, stop, row);
    if gain.is_nan() {
        return Reason::Nan;
    }
    assert!(gain <= threshold);
    Reason::Below(gain)
}

/// Rows x with start+m <= x < stop-m aren't; with a closed end "too near at the right means beyond
/// stop-m".
fn is_near(shortest: Shortest, start: usize, stop: usize, row: usize) -> bool {
    let [m, start, stop, row] = [shortest.m, start, stop, row].map(|number| number as i128);
    let beyond = if shortest.closed { row > stop - m } else { row >= stop - m };
    row < start + m || beyond
}

/// The first pair of the list with a < x <= b.
fn barring(forbidden: &Forbidden, row: usize) -> Option<(usize, usize)> {
    rules::pairs(forbidden).find(|(a, b)| *a < row && row <= *b)
}
