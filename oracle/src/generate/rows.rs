//! Rows to ask about: one for a case, or every row of its run, one line after another.

use crate::draft::Draft;
use crate::kinds::FAR;
use crate::random::Random;

/// The kind that asks about a row.
pub const ASKING: &str = "why";

/// Runs of more rows are not gone through.
const MOST: u64 = 40;

/// A row of the run: any; one that m makes the first or the last far enough from the ends of the run or of
/// a draw, or one beside it; one at the ends of a barred stretch; one that differs from the row before.
pub fn ask(random: &mut Random, draft: &mut Draft) {
    let (n, m, any) = (draft.n, draft.m, random.below(draft.n));
    let [start, stop] = one(random, &draft.draws).unwrap_or([0, n]);
    let [a, b] = draft.forbidden.as_ref().and_then(|list| one(random, list)).unwrap_or([0, n]);
    let first = random.of(&[0, start]).saturating_add(m);
    let last = random.of(&[n, stop]).saturating_sub(m);
    let row = match random.weighted(&[5, 3, 3, 2, 1, 6]) {
        0 => any,
        1 => first.saturating_sub(random.below(2)),
        2 => last.saturating_add(random.below(3)).saturating_sub(1),
        3 => random.of(&[a, b]).saturating_add(random.below(2)),
        4 => random.of(&[0, n - 1]),
        _ => shift(random, draft).unwrap_or(any),
    };
    draft.row = row.min(n - 1);
}

fn shift(random: &mut Random, draft: &Draft) -> Option<u64> {
    let d = draft.d as usize;
    let pairs = draft.cells.chunks_exact(d).zip(draft.cells.chunks_exact(d).skip(1));
    let shifts: Vec<u64> =
        pairs.zip(1..).filter(|((row, next), _)| row != next).map(|(_, row)| row).collect();
    (!shifts.is_empty()).then(|| random.of(&shifts))
}

fn one(random: &mut Random, list: &[u64]) -> Option<[u64; 2]> {
    let pairs = list.len() as u64 / 2;
    let place = 2 * random.below(pairs.max(1)) as usize;
    list.get(place..place + 2).map(|pair| [pair[0], pair[1]])
}

/// A row at or past n.
pub fn outside(random: &mut Random, draft: &mut Draft) {
    let (n, far) = (draft.n, random.of(&FAR));
    draft.row = random.of(&[n, n, n.saturating_add(1), far, u64::MAX]).max(n);
}

/// Whether a run is gone through row by row.
pub fn goes_through(random: &mut Random, draft: &Draft) -> bool {
    draft.kind == ASKING && draft.n <= MOST && random.one_in(12)
}

/// A line for every row of the run, and some for rows past it.
pub fn lines(draft: &mut Draft) -> Vec<String> {
    let asked = (0..draft.n).chain([draft.n, draft.n + 1, u64::MAX]);
    let line = |row| {
        draft.row = row;
        draft.line()
    };
    asked.map(line).collect()
}
