//! The entry points that need room, with room of their own: refusal 7 is never given. The others are those of [`lent`].
use std::ops::Range;

mod feed;

use crate::lent::{self, FedRoom, PredictRoom, SegmentsRoom, TreeRoom, WhyRoom};
use crate::{Counts, Lists, Matrix, Node, Record, Refusal, Segments, Settings, Split, Tree, Why};
pub use feed::Feed;

/// The sizes of documents 01 and 02. Beyond them a call is refused by 1 or 6, whatever its room: none is allocated.
const MOST_ROWS: usize = 4096;
const MOST_COLUMNS: usize = 64;
const MOST_NEIGHBOURS: usize = 1024;
const MOST_LAYERS: usize = 64;
const MOST_STORED: usize = 4096;

/// Entries of `rows` for each record, and bytes for the text of an origin.
const ENTRIES: usize = 5;
const TEXT: usize = 25;

fn sums_room(matrix: Matrix) -> Vec<f64> {
    if matrix.rows > MOST_ROWS || matrix.columns > MOST_COLUMNS {
        return Vec::new();
    }
    vec![0.0; (matrix.rows + 1) * matrix.columns]
}

/// The segment. One that no run can have is refused by 8 whatever its ends: `[1, 0)` stands for it, which needs no room.
fn of_a_run(segment: Range<usize>) -> Range<usize> {
    if segment.end > MOST_ROWS {
        return Range { start: 1, end: 0 };
    }
    segment
}

/// T, the most records that can be stored: `most` where there are draws, else one for each segment of the layers.
fn most_stored(lists: Lists) -> usize {
    let Lists { layers, draws, most } = lists;
    let admitted = |v: &f64| *v >= 1.0 / 4096.0 && *v < 1.0;
    if most > MOST_STORED || layers.len() > MOST_LAYERS || !layers.iter().all(admitted) {
        return 0;
    }
    if !draws.is_empty() {
        return most;
    }
    layers.iter().map(|v| 2 * ((1.0 / v) as f32).ceil() as usize - 1).sum()
}

/// The candidates of a segment of a run of `rows` rows, ascending. Reads m, closed and forbidden.
pub fn split_candidates(rows: usize, segment: Range<usize>, settings: &Settings) -> Result<Vec<usize>, Refusal> {
    let (segment, m) = (of_a_run(segment), settings.m);
    let length = segment.len() + usize::from(settings.closed);
    let mut candidates = vec![0; length.saturating_sub(m).saturating_sub(m)];
    let count = lent::split_candidates(rows, segment, settings, &mut candidates)?;
    candidates.truncate(count);
    Ok(candidates)
}

/// The gain of cutting the segment at `split`.
pub fn gain(matrix: Matrix, segment: Range<usize>, split: usize) -> Result<f64, Refusal> {
    lent::gain(matrix, segment, split, &mut sums_room(matrix))
}

/// The best split of the segment and its gain. Reads m, closed and forbidden.
pub fn find_best_split(matrix: Matrix, segment: Range<usize>, settings: &Settings) -> Result<Split, Refusal> {
    lent::find_best_split(matrix, segment, settings, &mut sums_room(matrix))
}

/// Five entries of `rows` and one of `gains` for each record.
fn records(rows: &[usize], gains: &[f64], count: usize) -> Vec<Record> {
    rows.chunks_exact(ENTRIES)
        .zip(gains)
        .take(count)
        .map(|(r, &gain)| Record { start: r[0], stop: r[1], split: r[2], gain, kind: r[3], number: r[4] })
        .collect()
}

/// Room for five entries of `rows` and one of `gains` for each record.
fn records_room(count: usize) -> (Vec<usize>, Vec<f64>) {
    (vec![0; ENTRIES * count], vec![0.0; count])
}

/// The records that searching the segments stores. Reads m, closed and forbidden.
pub fn stored_segments(matrix: Matrix, settings: &Settings, segments: Segments) -> Result<Vec<Record>, Refusal> {
    let lists = Lists::from(segments);
    let (mut sums, (mut rows, mut gains)) = (sums_room(matrix), records_room(most_stored(lists)));
    let room = SegmentsRoom { sums: &mut sums, rows: &mut rows, gains: &mut gains };
    let count = lent::stored_segments(matrix, settings, lists, room)?;
    Ok(records(&rows, &gains, count))
}

/// B, the most nodes that a tree can have.
fn most_nodes(rows: usize, settings: &Settings) -> usize {
    if rows == 0 || rows > MOST_ROWS || settings.m == 0 {
        return 1;
    }
    let parts = (rows - usize::from(!settings.closed)) / settings.m;
    (2 * parts).saturating_sub(1).max(1)
}

/// Room for a tree, but for its sums.
struct Room {
    rows: Vec<usize>,
    gains: Vec<f64>,
    nodes: Vec<Node>,
    cuts: Vec<usize>,
}

impl Room {
    /// Of a run of `rows` rows.
    fn of(rows: usize, settings: &Settings, lists: Lists) -> Room {
        let most = most_nodes(rows, settings);
        let (rows, gains) = records_room(most_stored(lists) + most);
        Room { rows, gains, nodes: vec![Node::default(); most], cuts: vec![0; (most - 1) / 2] }
    }

    fn lend(&mut self) -> FedRoom<'_> {
        FedRoom { rows: &mut self.rows, gains: &mut self.gains, nodes: &mut self.nodes, cuts: &mut self.cuts }
    }

    /// The tree that was grown here.
    fn tree(mut self, counts: Counts) -> Tree {
        self.nodes.truncate(counts.nodes);
        self.cuts.truncate(counts.cuts);
        let records = records(&self.rows, &self.gains, counts.records);
        Tree { nodes: self.nodes, cuts: self.cuts, records, stored: counts.stored }
    }
}

/// The tree of the run, over the records of the segments. Reads m, closed, threshold and forbidden.
pub fn tree(matrix: Matrix, settings: &Settings, segments: Segments) -> Result<Tree, Refusal> {
    let lists = Lists::from(segments);
    let (mut sums, mut room) = (sums_room(matrix), Room::of(matrix.rows, settings, lists));
    let FedRoom { rows, gains, nodes, cuts } = room.lend();
    let lending = TreeRoom { sums: &mut sums, rows, gains, nodes, cuts };
    let counts = lent::tree(matrix, settings, lists, lending)?;
    Ok(room.tree(counts))
}

/// Why the tree that [`tree`] grows is cut at the row, or is not. Reads m, closed, threshold and forbidden.
pub fn why(matrix: Matrix, settings: &Settings, segments: Segments, row: usize) -> Result<Why, Refusal> {
    let lists = Lists::from(segments);
    let (mut sums, (mut rows, mut gains)) = (sums_room(matrix), records_room(most_stored(lists)));
    let room = WhyRoom { sums: &mut sums, rows: &mut rows, gains: &mut gains, text: &mut [0; TEXT] };
    lent::why(matrix, settings, lists, row, room)
}

fn ordering_room(rows: usize) -> (Vec<u32>, Vec<f64>) {
    if rows > MOST_NEIGHBOURS {
        return (Vec::new(), Vec::new());
    }
    (vec![0; rows * rows], vec![0.0; rows])
}

/// Each row's order of all rows, row after row.
pub fn ordering(matrix: Matrix) -> Result<Vec<u32>, Refusal> {
    let (mut ordering, mut distances) = ordering_room(matrix.rows);
    lent::ordering(matrix, &mut ordering, &mut distances)?;
    Ok(ordering)
}

/// For each row of the segment the share of its neighbours there at or past `split`. The row itself is none of them, wherever it stands
/// in its order.
pub fn predict(matrix: Matrix, segment: Range<usize>, split: usize) -> Result<Vec<f64>, Refusal> {
    let segment = of_a_run(segment);
    let (mut ordering, mut distances) = ordering_room(matrix.rows);
    let mut predictions = vec![0.0; segment.len()];
    let room = PredictRoom { ordering: &mut ordering, distances: &mut distances, predictions: &mut predictions };
    lent::predict(matrix, segment, split, room)?;
    Ok(predictions)
}

/// The gain curve of two rows of likelihoods.
pub fn gain_from_likelihoods(l0: &[f64], l1: &[f64]) -> Result<Vec<f64>, Refusal> {
    let mut curve = vec![0.0; l0.len()];
    lent::gain_from_likelihoods(l0, l1, &mut curve)?;
    Ok(curve)
}
