use crate::lent::{numbers, values};
use crate::outcome::agree;
use crate::{Call, Outcome};
use haspgarnet_changeforest::{lent, owned, Matrix, Settings};
use protocol::{bits, same, Cand, Gain, Line, Search, Segment, Shortest};

/// M under the prefix `closed` or without it.
pub fn shortest(shortest: Shortest) -> Settings<'static> {
    Settings { m: shortest.m, closed: shortest.closed, ..Settings::default() }
}

pub fn settings(segment: &Segment) -> Settings<'_> {
    Settings { forbidden: segment.forbidden.as_deref(), ..shortest(segment.shortest) }
}

pub fn matrix(matrix: &protocol::Matrix) -> Matrix<'_> {
    Matrix { cells: &matrix.cells, rows: matrix.n, columns: matrix.d }
}

/// How many sums a call tells.
pub fn sums_of(matrix: &Matrix) -> usize {
    (matrix.rows + 1) * matrix.columns
}

/// Whether these sums are those that `gain` leaves for the same matrix.
pub fn as_gain_leaves(readings: Matrix, sums: &[f64]) -> bool {
    let mut others = vec![0.0; sums.len()];
    lent::gain(readings, 0..0, 0, &mut others).is_ok() && same(sums, &others)
}

impl Call for Cand {
    fn call(&self, line: &Line) -> Outcome {
        let Segment { n, start, stop, .. } = self.segment;
        let settings = settings(&self.segment);
        let mut rows = numbers(line.lent(1));
        let count = lent::split_candidates(n, start..stop, &settings, rows.slice());
        let told = count.map(|count| rows.told(count).to_vec());
        Outcome {
            kept: rows.kept_past(count.unwrap_or(0)),
            agrees: agree(told.clone(), owned::split_candidates(n, start..stop, &settings)),
            told: told.map(|rows| Cand::answer(&rows)),
        }
    }
}

impl Call for Gain {
    fn call(&self, line: &Line) -> Outcome {
        let (readings, segment) = (matrix(&self.matrix), self.start..self.stop);
        let mut sums = values(line.lent(1));
        let gain = lent::gain(readings, segment.clone(), self.split, sums.slice());
        let told = gain.map_or(0, |_| sums_of(&readings));
        let owned = owned::gain(readings, segment, self.split);
        Outcome {
            kept: sums.kept_past(told),
            agrees: agree(gain.map(bits), owned.map(bits)),
            told: gain.map(|gain| Gain::answer(gain, sums.told(told))),
        }
    }
}

impl Call for Search {
    fn call(&self, line: &Line) -> Outcome {
        let (readings, settings) = (matrix(&self.matrix), settings(&self.segment));
        let segment = self.segment.start..self.segment.stop;
        let mut sums = values(line.lent(1));
        let found = lent::find_best_split(readings, segment.clone(), &settings, sums.slice());
        let told = found.map_or(0, |_| sums_of(&readings));
        let left = found.is_err() || as_gain_leaves(readings, sums.told(told));
        let answer = found.map(|found| Search::answer(found.split, found.gain));
        let owned = owned::find_best_split(readings, segment, &settings);
        let owned = owned.map(|found| Search::answer(found.split, found.gain));
        Outcome {
            kept: left && sums.kept_past(told),
            agrees: agree(answer.clone(), owned),
            told: answer,
        }
    }
}
