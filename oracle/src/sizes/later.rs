//! Later sheets.

use crate::lots::odd;
use crate::seen::Seen;
use crate::Counts;
use protocol::{same, Case, FedTree, Grown, Matrix, Origin, Record, State};

impl Counts {
    /// Of trees over sums.
    pub fn later(&mut self, seen: &Seen, column: &'static str) {
        let Case::FedTree(case) = &seen.line.case else { return };
        let (Some(grown), Some(sums)) = (seen.grown(), case.run_sums()) else {
            *self.together.entry(column).or_default().entry(seen.numbers()).or_default() += 1;
            return self.refused(seen, case, column);
        };
        let Grown { nodes, cuts, .. } = grown;
        let (stored, table) = (&case.tree.stored, &mut self.later);
        let of_matrix = case.matrix().is_some_and(|matrix| same(&sums_of(&matrix), sums));
        table.count(column, "admitted", [true]);
        table.count(column, "over sums of a matrix; over others", [of_matrix, !of_matrix]);
        table.count(column, "over a NaN; over an infinity", odd(sums));
        table.count(column, "with more behind the sums", [case.sums.len() > sums.len()]);
        let [drawn, layered] = [!stored.lists.draws.is_empty(), !stored.lists.layers.is_empty()];
        let label = "with draws; with layers; with neither";
        table.count(column, label, [drawn, layered, !drawn && !layered]);
        let listed = seen.entries().is_some_and(|entries| entries > 0);
        table.count(column, "with a forbidden list", [listed]);
        let cut = !cuts.is_empty();
        table.count(column, "cut; of these over sums of a matrix", [cut, cut && of_matrix]);
        let choices: Vec<Record> = nodes.iter().filter_map(|node| node.choice).collect();
        let any = |hold: fn(&Record) -> bool| choices.iter().any(hold);
        let layer = any(|choice| matches!(choice.origin, Origin::Layer(_)));
        let draw = any(|choice| matches!(choice.origin, Origin::Draw(_)));
        table.count(column, "with a choice of a layer; of a draw", [layer, draw]);
        let label = "with an infinite gain; with a segment whose gains are all NaN";
        let infinite = any(|choice| choice.gain == f64::INFINITY);
        table.count(column, label, [infinite, any(|choice| choice.split == 0)]);
    }

    fn refused(&mut self, seen: &Seen, case: &FedTree, column: &str) {
        let (State { n, d, count }, table) = (case.state(), &mut self.refused_later);
        let [seven, thirteen, fourteen] = [7, 13, 14].map(|number| seen.alone(number));
        let short = case.run_sums().is_none();
        let label = "7 alone, by the sums; by another slice";
        table.count(column, label, [seven && short, seven && !short]);
        let one = (count as u128).abs_diff(n as u128 * d as u128) == 1;
        let most = count == usize::MAX;
        let hold = [true, one, most].map(|hold| thirteen && hold);
        table.count(column, "13 alone; by one cell; with a count of 2^64-1", hold);
        let hold = [true, one, count == 0].map(|hold| fourteen && hold);
        table.count(column, "14 alone; by one cell; with a count of 0", hold);
    }
}

/// "C[0] = 0; C[i+1] = (0 + x[i]) + C[i] per column".
fn sums_of(matrix: &Matrix) -> Vec<f64> {
    let mut sums = vec![0.0; matrix.d];
    for (place, cell) in matrix.cells.iter().enumerate() {
        sums.push((0.0 + cell) + sums[place]);
    }
    sums
}
