//! Runs that are fed in lots, lots by themselves, and states.

use crate::seen::{number, Seen};
use crate::Counts;
use protocol::{Case, Feed, Lot, State, Step, Taken};
use std::collections::BTreeSet;

/// The rows and the columns of whole runs of few cells, and the lengths of their lots, none of them empty.
pub type Cuttings = BTreeSet<(usize, usize, Vec<usize>)>;

const FEW: usize = 7;

/// How many ways to cut few cells up were seen, and how many there are.
pub fn ways(seen: &Cuttings) -> [u64; 2] {
    let sizes = (1..=FEW).flat_map(|n| (1..=FEW / n).map(move |d| n * d));
    [seen.len() as u64, sizes.map(|cells| 1 << (cells - 1)).sum()]
}

fn taken(word: &str) -> Taken {
    word.strip_prefix("refused:").map_or_else(|| Ok(number(word)), |refusal| Err(number(refusal)))
}

/// Whether some are a NaN, and some an infinity.
pub fn odd(values: &[f64]) -> [bool; 2] {
    [values.iter().any(|value| value.is_nan()), values.iter().any(|value| value.is_infinite())]
}

/// Whether the one bad cell of a longer lot is the first, the last, or between them.
fn place_of_bad(cells: &[f64]) -> [bool; 3] {
    let bad: Vec<usize> = (0..cells.len()).filter(|place| !cells[*place].is_finite()).collect();
    let last = cells.len() - 1;
    match bad[..] {
        [place] if last > 0 => [place == 0, place == last, 0 < place && place < last],
        _ => [false; 3],
    }
}

impl Counts {
    /// Of the kinds that are handed cells or close.
    pub fn lots(&mut self, seen: &Seen, column: &'static str) {
        if !seen.admitted() {
            *self.together.entry(column).or_default().entry(seen.numbers()).or_default() += 1;
        }
        match &seen.line.case {
            Case::Feed(case) if seen.admitted() => self.run(seen, case, column),
            Case::Lot(case) => self.lot(seen, case, column),
            Case::Close(case) => self.state(seen, case.state),
            _ => (),
        }
    }

    fn run(&mut self, seen: &Seen, case: &Feed, column: &str) {
        let Feed { n, d, sums, steps } = case;
        let mut words = seen.answer.split(' ').skip(1);
        let answers: Vec<Taken> = words.by_ref().take(steps.len()).map(taken).collect();
        let whole = words.nth(1).is_some_and(|closing| taken(closing).is_ok());
        let table = &mut self.lots;
        table.count(column, "opened; in longer room", [true, sums.len() > (n + 1) * d]);
        table.count(column, "in room with a NaN; with an infinity", odd(sums));
        table.count(column, "fed whole; left before", [whole, !whole]);
        let went_on = |refusal| {
            let place = answers.iter().position(|answer| *answer == Err(refusal));
            let mut later = steps.iter().zip(&answers).skip(place.unwrap_or(steps.len()));
            later.any(|(step, answer)| answer.is_ok() && !step.cells().is_empty())
        };
        table.count(column, "that went on after 4; 13; 14", [4, 13, 14].map(went_on));
        let mut count = 0;
        for (step, answer) in steps.iter().zip(&answers) {
            match (step, answer) {
                (Step::Lot(cells), Ok(after)) => {
                    self.lot_taken(State { n: *n, d: *d, count }, cells, column);
                    count = *after;
                }
                (Step::Lot(cells), Err(refusal)) => {
                    let many = count + cells.len() > n * d;
                    self.lot_refused(*refusal, many, cells, column);
                }
                (Step::Close, closed) => {
                    let label = "closings between lots: too early; of a whole run";
                    self.lots.count(column, label, [closed.is_err(), closed.is_ok()]);
                }
            }
        }
        let lots = steps.iter().zip(&answers).filter(|(_, answer)| answer.is_ok());
        let lots = lots.filter(|(step, _)| !matches!(step, Step::Close));
        let lengths: Vec<usize> = lots.map(|(step, _)| step.cells().len()).collect();
        if whole && n * d <= FEW && !lengths.contains(&0) {
            self.cuttings.insert((*n, *d, lengths));
        }
    }

    fn lot_taken(&mut self, state: State, cells: &[f64], column: &str) {
        let State { d, count, .. } = state;
        let (table, length) = (&mut self.lots, cells.len());
        table.count(column, "lots taken", [true]);
        table.count(column, "of no cell; of one", [length == 0, length == 1]);
        let label = "of d-1 cells; of d; of d+1, with d above 1";
        table.count(column, label, [d - 1, d, d + 1].map(|long| d > 1 && length == long));
        let within = [count, count + length].map(|place| place % d != 0);
        table.count(column, "that begin within a row; that end within one", within);
    }

    fn lot_refused(&mut self, refusal: usize, many: bool, cells: &[f64], column: &str) {
        let table = &mut self.lots;
        let label = "lots refused by 4; by 4, with too many cells besides; by 13";
        table.count(column, label, [refusal == 4, refusal == 4 && many, refusal == 13]);
        let label = "whose one bad cell is the first; the last; between them";
        table.count(column, label, place_of_bad(cells));
    }

    fn lot(&mut self, seen: &Seen, Lot { state, sums, cells }: &Lot, column: &str) {
        let admitted = seen.admitted();
        if admitted {
            self.lot_taken(*state, cells, column);
        }
        let added_to = admitted.then(|| &sums[state.count..][..cells.len().min(state.d)]);
        self.lots.some(column, "added to a NaN; to an infinity", added_to.map(odd));
        let all = state.n as u128 * state.d as u128;
        let (count, with) = (state.count as u128, state.count as u128 + cells.len() as u128);
        let past = [count <= all, count > all, with >> 64 > 0].map(|past| seen.alone(13) && past);
        let label = "13 alone, by a count up to n*d; past it; past 64 bits with the lot's";
        self.lots.count(column, label, past);
    }

    fn state(&mut self, seen: &Seen, state: State) {
        let past = state.n as u128 * state.d as u128 >> 64 > 0;
        let hold = [seen.admitted(), seen.alone(13), seen.alone(14)];
        self.sentences.count("", "close: answered; 13 alone; 14 alone", hold);
        let hold = [state.count == usize::MAX, past];
        self.sentences.count("", "close: a count of 2^64-1; n*d past 64 bits", hold);
    }
}
