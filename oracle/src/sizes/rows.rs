//! Rows that are asked about.

use crate::rules::pairs;
use crate::seen::{number, Seen};
use crate::Counts;
use protocol::{value, Case, Matrix, Stored, Tree, Why};

impl Counts {
    /// Of rows that are asked about.
    pub fn rows(&mut self, seen: &Seen, column: &'static str) {
        let Case::Why(Why { tree: Tree { stored, threshold }, row }) = &seen.line.case else {
            return;
        };
        let Stored { matrix: Matrix { n, .. }, shortest, forbidden, lists } = stored;
        let (row, n, m) = (*row, *n, shortest.m);
        let table = &mut self.rows;
        let before = self.asked;
        self.asked = [before[1], (row, n)];
        let through = before == [(n, n), (n.wrapping_add(1), n)] && row == usize::MAX;
        let Some(told) = seen.answer.strip_prefix("ok ") else {
            *self.together.entry(column).or_default().entry(seen.numbers()).or_default() += 1;
            let table = &mut self.refused_rows;
            table.count(column, "runs gone through row by row", [through]);
            let outside = lists.draws.chunks_exact(2).any(|draw| draw[1] > n);
            table.count(column, "8 alone, by the row", [seen.alone(8) && !outside]);
            table.count(column, "8 alone, by a draw", [seen.alone(8) && row < n]);
            return;
        };
        let words: Vec<&str> = told.split(' ').collect();
        let (reason, ends) = match words[0] {
            "barred" => ("barred", &words[3..5]),
            "below" => ("below", &words[2..4]),
            other => (other, &words[1..3]),
        };
        let (start, stop) = (number(ends[0]), number(ends[1]));
        let (is, whole) = (|word| reason == word, (start, stop) == (0, n));
        let [drawn, layered] = [!lists.draws.is_empty(), !lists.layers.is_empty()];
        let barring = || pairs(forbidden).filter(|(a, b)| *a < row && row <= *b);
        let tightest = barring().map(|(a, b)| b - a).min();
        let first = barring().next().map(|(a, b)| b - a);
        let several = is("barred") && barring().count() > 1;
        let gain = is("below").then(|| value(words[1].as_bytes()).expect("bits"));
        table.count(column, "admitted", [true]);
        table.count(column, "with the closed end", [shortest.closed]);
        let label = "with draws; with layers; with neither";
        table.count(column, label, [drawn, layered, !drawn && !layered]);
        table.count(column, "cut", [is("cut")]);
        table.count(column, "of these not of the whole run", [is("cut") && !whole]);
        table.count(column, "too near an end", [is("near")]);
        table.count(column, "of these barred as well", [is("near") && first.is_some()]);
        table.count(column, "barred", [is("barred")]);
        table.count(column, "of these by several pairs", [several]);
        let looser = is("barred") && first > tightest;
        table.count(column, "of these the first listed not the tightest", [looser]);
        table.count(column, "no number", [is("nan")]);
        table.count(column, "not above", [is("below")]);
        let infinite = gain.is_some_and(f64::is_infinite);
        table.count(column, "of these an infinite gain", [infinite]);
        let equal = gain == Some(*threshold);
        table.count(column, "of these a gain equal to the threshold", [equal]);
        let uncut = !is("cut");
        let label = "of an uncut row: in the whole run; in a part of it";
        table.count(column, label, [uncut && whole, uncut && !whole]);
        let long = uncut && stop - start >= 2 * m + usize::from(!shortest.closed);
        let [from_start, from_stop] = [row as i128 - start as i128, row as i128 - stop as i128];
        let m = m as i128;
        let hold = [m - 1, m].map(|rows| long && from_start == rows);
        table.count(column, "the row start+m-1; start+m", hold);
        let hold = [-m - 1, -m, -m + 1].map(|rows| long && from_stop == rows);
        table.count(column, "the row stop-m-1; stop-m; stop-m+1", hold);
    }
}
