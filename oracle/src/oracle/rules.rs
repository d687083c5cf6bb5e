//! The refusals: a second reading of document 01 ("Refusal numbers", "Sizes"), of the closed end, the
//! draws, the tool for a row and the rows while the deck feeds in document 02 and of the decisions that go
//! with them, made for the oracle alone. Nothing here is taken from the Rust, which has few refusals, nor
//! from the code that the oracle judges. Rule by rule, in number order.

use protocol::{
    Cand, Case, Close, Curve, Feed, Forbidden, Gain, Guesses, Knn, Lists, Lot, Matrix, Perm, Pick,
    Rel, Segment, Shortest, State, Stored, Tree, Why, Wild,
};

const MOST_ROWS: usize = 4_096;
const MOST_NEIGHBOUR_ROWS: usize = 1_024;
const MOST_COLUMNS: usize = 64;
const MOST_M: usize = 4_096;
const MOST_LAYERS: usize = 64;
const SMALLEST_LAYER: f64 = 1.0 / 4096.0;
const MOST_DRAWN: usize = 4_096;
const MOST_PERMUTATIONS: usize = 999;
const MOST_CURVES: usize = 3;
const LONGEST_CURVE: usize = 4_096;

/// Which numbers apply; the lowest is given.
#[derive(Default)]
pub struct Verdict([bool; 15]);

impl Verdict {
    fn rule(mut self, number: usize, applies: bool) -> Self {
        self.0[number] |= applies;
        self
    }

    pub fn says(&self, number: usize) -> bool {
        self.0[number]
    }

    pub fn lowest(&self) -> Option<usize> {
        (1..=14).find(|number| self.0[*number])
    }
}

// 1: "n or d outside its size, or length not n*d". Without a matrix, n alone is judged, or n and d ("1 for
// a size", document 02).

fn rows(n: usize, most: usize) -> bool {
    n < 1 || n > most
}

fn sizes(n: usize, d: usize, most: usize) -> bool {
    rows(n, most) || d < 1 || d > MOST_COLUMNS
}

fn matrix(matrix: &Matrix, most: usize) -> bool {
    let cells = matrix.n as u128 * matrix.d as u128;
    sizes(matrix.n, matrix.d, most) || matrix.cells.len() as u128 != cells
}

// 2: "m outside its size; or a relative length not strictly between 0 and 0.5 (NaN included)".

fn minimal_length(shortest: Shortest) -> bool {
    shortest.m < 1 || shortest.m > MOST_M
}

fn relative_length(r: f64) -> bool {
    !(r > 0.0 && r < 0.5)
}

// 3: "threshold NaN; or alpha not strictly between 0 and 1".

fn threshold(threshold: f64) -> bool {
    threshold.is_nan()
}

fn alpha(alpha: f64) -> bool {
    !(alpha > 0.0 && alpha < 1.0)
}

// 4: "an infinite or NaN cell, likelihood, delta, base or observed maximum".

fn not_finite(values: &[f64]) -> bool {
    values.iter().any(|value| value.is_infinite() || value.is_nan())
}

// 5: "forbidden list of odd length, or a pair with a > b"; "also for an odd draw list" (document 02). A
// forbidden list that isn't given isn't looked at.

pub fn pairs(forbidden: &Forbidden) -> impl Iterator<Item = (usize, usize)> + '_ {
    let list = forbidden.as_deref().unwrap_or(&[]);
    list.chunks_exact(2).map(|pair| (pair[0], pair[1]))
}

fn bad_list(forbidden: &Forbidden) -> bool {
    let odd = forbidden.as_ref().is_some_and(|list| list.len() % 2 == 1);
    odd || pairs(forbidden).any(|(a, b)| a > b)
}

fn odd_draws(draws: &[usize]) -> bool {
    draws.len() % 2 == 1
}

// 6: "more than 64 layers, or a layer value not in [1/4096, 1)"; "also for layers and draws both
// non-empty or W above 4,096" (document 02), whether or not there are draws.

fn bad_layers(layers: &[f64]) -> bool {
    layers.len() > MOST_LAYERS || layers.iter().any(|v| !(*v >= SMALLEST_LAYER && *v < 1.0))
}

fn both(lists: &Lists) -> bool {
    !lists.layers.is_empty() && !lists.draws.is_empty()
}

// 7: "a lent working or output slice shorter than stated here": ../protocol/room.rs, from the stated
// lengths. Sums that a line lends as they are found, "7 as ever" (document 02): "(n+1)*d f64 of room".

fn short_sums(n: usize, d: usize, room: usize) -> bool {
    (room as u128) < (n as u128 + 1) * d as u128
}

// 8: "start > stop or stop > n; a given split (gain, kNN) below start or above stop; for kNN also
// start = stop"; "also for a draw with stop > n" (document 02), any of the list. A draw with start > stop
// is passed over. "8 for a row at or past n" (document 02).

fn outside(n: usize, start: usize, stop: usize) -> bool {
    start > stop || stop > n
}

fn split_outside(start: usize, stop: usize, split: usize) -> bool {
    split < start || split > stop
}

fn draw_outside(n: usize, draws: &[usize]) -> bool {
    draws.chunks_exact(2).any(|draw| draw[1] > n)
}

fn row_outside(n: usize, row: usize) -> bool {
    row >= n
}

// 9: "2*m >= stop-start"; permutation counts "for 2*m >= L". With a closed end "2*m > stop-start", and
// "L = 2m is then admitted" (document 02).

fn too_short(shortest: Shortest, length: i128) -> bool {
    let twice = 2 * shortest.m as i128;
    twice > length || (twice == length && !shortest.closed)
}

fn length(segment: &Segment) -> i128 {
    segment.stop as i128 - segment.start as i128
}

// 10: "a candidate range exists but every row of it is forbidden". Rows x with
// start+m <= x < stop-m, except a < x <= b for some pair. With a closed end "x = stop-m allowed".

fn range(segment: &Segment) -> (i128, i128) {
    let Shortest { m, closed } = segment.shortest;
    let end = segment.stop as i128 - m as i128;
    (segment.start as i128 + m as i128, if closed { end + 1 } else { end })
}

fn barred_up_to(forbidden: &Forbidden, x: i128) -> Option<i128> {
    let bars = |(a, b): &(i128, i128)| *a < x && x <= *b;
    pairs(forbidden).map(|(a, b)| (a as i128, b as i128)).find(bars).map(|(_, b)| b)
}

fn all_barred(segment: &Segment) -> bool {
    let (mut x, end) = range(segment);
    if x >= end {
        return false;
    }
    while let Some(b) = barred_up_to(&segment.forbidden, x) {
        x = b + 1;
    }
    x >= end
}

fn is_candidate(segment: &Segment, x: usize) -> bool {
    let (first, end) = range(segment);
    let x = x as i128;
    first <= x && x < end && barred_up_to(&segment.forbidden, x).is_none()
}

// 11: "a permutation lacks an index of 0..L-1, holds one twice or out of range; list length not
// P*L, or P > 999".

fn bad_permutations(perms: &[usize], p: usize, l: usize) -> bool {
    if p > MOST_PERMUTATIONS || perms.len() as u128 != p as u128 * l as u128 {
        return true;
    }
    let twice_or_out = |one: &[usize]| {
        let mut seen = vec![false; l];
        one.iter().any(|i| *i >= l || std::mem::replace(&mut seen[*i], true))
    };
    l > 0 && perms.chunks_exact(l).any(twice_or_out)
}

// 12: "number of curves not 1 to 3; curve lengths differ, are 0 or above 4,096; a guess that is no
// candidate; for the pick, a curve length other than stop-start".

fn bad_lengths(lengths: &[usize]) -> bool {
    let bad = |length: &usize| *length == 0 || *length > LONGEST_CURVE;
    lengths.iter().any(bad) || lengths.iter().any(|length| *length != lengths[0])
}

// 13: "then 13 for too many cells", "more cells than n*d"; 14: "for closing, or asking for the sheet,
// before n*d cells" (document 02).

fn too_many(state: State, more: usize) -> bool {
    state.count as u128 + more as u128 > state.n as u128 * state.d as u128
}

fn too_few(state: State) -> bool {
    (state.count as u128) < state.n as u128 * state.d as u128
}

/// 2, 5, 8, 9 and 10 of a segment that is searched.
fn searched(verdict: Verdict, segment: &Segment) -> Verdict {
    verdict
        .rule(2, minimal_length(segment.shortest))
        .rule(5, bad_list(&segment.forbidden))
        .rule(8, outside(segment.n, segment.start, segment.stop))
        .rule(9, too_short(segment.shortest, length(segment)))
        .rule(10, all_barred(segment))
}

/// What lies beyond the count isn't looked at; with a count above 3 the three that are lent are.
/// L is the first curve's length, 0 if there is none.
fn permuted(verdict: Verdict, case: &Perm) -> Verdict {
    let lent = case.k.min(MOST_CURVES);
    let (bases, deltas) = (&case.bases[..lent], &case.deltas[..lent]);
    let lengths: Vec<usize> = deltas.iter().map(Vec::len).collect();
    let l = lengths.first().copied().unwrap_or(0);
    let infinite = not_finite(bases) || deltas.iter().any(|curve| not_finite(curve));
    verdict
        .rule(2, minimal_length(case.shortest))
        .rule(3, alpha(case.alpha))
        .rule(4, infinite || not_finite(&[case.max]))
        .rule(9, too_short(case.shortest, l as i128))
        .rule(11, bad_permutations(&case.perms, case.p, l))
        .rule(12, case.k < 1 || case.k > MOST_CURVES || bad_lengths(&lengths))
}

/// 1 and 4 of a matrix.
fn measured(verdict: Verdict, cells: &Matrix, most: usize) -> Verdict {
    verdict.rule(1, matrix(cells, most)).rule(4, not_finite(&cells.cells))
}

/// What is stored before a tree is grown.
fn stored(verdict: Verdict, case: &Stored) -> Verdict {
    let Stored { matrix, shortest, forbidden, lists } = case;
    verdict
        .rule(2, minimal_length(*shortest))
        .rule(5, bad_list(forbidden) || odd_draws(&lists.draws))
        .rule(6, bad_layers(&lists.layers) || both(lists) || lists.w > MOST_DRAWN)
        .rule(8, draw_outside(matrix.n, &lists.draws))
}

/// That, and a tree's threshold.
fn grown(verdict: Verdict, case: &Tree) -> Verdict {
    stored(verdict, &case.stored).rule(3, threshold(case.threshold))
}

/// 1 and 7 of a run that is opened in so much room.
fn opened(verdict: Verdict, n: usize, d: usize, room: usize) -> Verdict {
    verdict.rule(1, sizes(n, d, MOST_ROWS)).rule(7, short_sums(n, d, room))
}

/// Every number that applies to a lot.
pub fn fed(state: State, cells: &[f64], room: usize) -> Verdict {
    opened(Verdict::default(), state.n, state.d, room)
        .rule(4, not_finite(cells))
        .rule(13, too_many(state, cells.len()))
}

/// 13 and 14 of a run that is asked to be whole.
fn ended(verdict: Verdict, state: State) -> Verdict {
    verdict.rule(13, too_many(state, 0)).rule(14, too_few(state))
}

/// Every number that applies to closing.
pub fn closed(state: State) -> Verdict {
    ended(Verdict::default().rule(1, sizes(state.n, state.d, MOST_ROWS)), state)
}

fn picked(verdict: Verdict, case: &Pick) -> Verdict {
    let length = case.curve.len() as i128 != length(&case.segment);
    searched(verdict, &case.segment)
        .rule(12, bad_lengths(&[case.curve.len()]) || length)
        .rule(12, !is_candidate(&case.segment, case.guess))
}

/// Every number that applies to a case; `short` says whether a lent slice is too short.
pub fn judge(case: &Case, short: bool) -> Verdict {
    let verdict = Verdict::default().rule(7, short);
    match case {
        Case::Rel(Rel { r, n }) => {
            verdict.rule(1, rows(*n, MOST_ROWS)).rule(2, relative_length(*r))
        }
        Case::F32(_) => verdict,
        Case::Cand(Cand { segment }) | Case::Guesses(Guesses { segment }) => {
            searched(verdict.rule(1, rows(segment.n, MOST_ROWS)), segment)
        }
        Case::Gain(Gain { matrix, start, stop, split }) => measured(verdict, matrix, MOST_ROWS)
            .rule(8, outside(matrix.n, *start, *stop) || split_outside(*start, *stop, *split)),
        Case::Search(case) => searched(measured(verdict, &case.matrix, MOST_ROWS), &case.segment),
        Case::Stored(case) => stored(measured(verdict, &case.matrix, MOST_ROWS), case),
        Case::Tree(case) | Case::Wild(Wild(case)) => {
            grown(measured(verdict, &case.stored.matrix, MOST_ROWS), case)
        }
        Case::Why(Why { tree, row }) => {
            let matrix = &tree.stored.matrix;
            grown(measured(verdict, matrix, MOST_ROWS), tree).rule(8, row_outside(matrix.n, *row))
        }
        Case::Feed(Feed { n, d, sums, .. }) => opened(verdict, *n, *d, sums.len()),
        Case::Lot(Lot { state, sums, cells }) => fed(*state, cells, sums.len()),
        Case::Close(Close { state }) => closed(*state),
        Case::FedTree(case) => {
            let state @ State { n, d, .. } = case.state();
            ended(grown(opened(verdict, n, d, case.sums.len()), &case.tree), state)
        }
        Case::Order(case) => measured(verdict, &case.matrix, MOST_NEIGHBOUR_ROWS),
        Case::Knn(Knn { matrix, start, stop, split }) => {
            measured(verdict, matrix, MOST_NEIGHBOUR_ROWS)
                .rule(8, outside(matrix.n, *start, *stop) || split_outside(*start, *stop, *split))
                .rule(8, start == stop)
        }
        Case::Curve(Curve { l0, l1 }) => verdict
            .rule(4, not_finite(l0) || not_finite(l1))
            .rule(12, bad_lengths(&[l0.len(), l1.len()])),
        Case::Pick(case) => picked(verdict.rule(1, rows(case.segment.n, MOST_ROWS)), case),
        Case::Perm(case) => permuted(verdict, case),
    }
}
