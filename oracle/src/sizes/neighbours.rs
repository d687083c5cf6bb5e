//! Neighbours, and rows at distance 0.

use crate::seen::Seen;
use crate::{before, Counts, NEIGHBOURS};
use protocol::{value, Case, Knn, Matrix, Order};

/// Which rows of a matrix are at distance 0.
struct Alike {
    /// The first of each row's order: the row itself, unless a lower one is at distance 0.
    firsts: Vec<usize>,
    /// Whether two at distance 0 have cells that are not equal.
    unequal: bool,
    /// Whether two have equal cells, a 0 and a -0 among them.
    signs: bool,
}

impl Alike {
    fn of(matrix: &Matrix) -> Alike {
        let rows: Vec<&[f64]> = matrix.cells.chunks_exact(matrix.d).collect();
        let mut alike = Alike { firsts: (0..matrix.n).collect(), unequal: false, signs: false };
        for (row, cells) in rows.iter().enumerate() {
            // A sum of squares is 0 where each of them is.
            let near = |lower: &usize| {
                let mut pairs = cells.iter().zip(rows[*lower]);
                pairs.all(|(a, b)| (a - b) * (a - b) == 0.0)
            };
            for lower in (0..row).filter(near) {
                let same = cells.iter().zip(rows[lower]).all(|(a, b)| a.to_bits() == b.to_bits());
                alike.firsts[row] = alike.firsts[row].min(lower);
                alike.unequal |= *cells != rows[lower];
                alike.signs |= *cells == rows[lower] && !same;
            }
        }
        alike
    }

    /// Whether the order of a row begins with another.
    fn behind(&self, row: usize) -> bool {
        self.firsts[row] != row
    }
}

impl Counts {
    /// Of neighbours: each kind, and its cases at a limit by themselves.
    pub fn neighbours(&mut self, seen: &Seen, kinds: &str) {
        let (matrix, place) = match &seen.line.case {
            Case::Knn(Knn { matrix, .. }) => (matrix, 0),
            Case::Order(Order { matrix }) => (matrix, 1),
            _ => return,
        };
        let column = NEIGHBOURS[place + if kinds.contains("limit") { 2 } else { 0 }];
        if !seen.admitted() {
            *self.together.entry(column).or_default().entry(seen.numbers()).or_default() += 1;
            return;
        }
        let (table, alike) = (&mut self.neighbours, Alike::of(matrix));
        let some = (0..matrix.n).any(|row| alike.behind(row));
        let all = some && alike.firsts.iter().all(|first| *first == 0);
        let sizes = [(101..1_024).contains(&matrix.n), matrix.n == 1_024, matrix.d > 1];
        table.count(column, "admitted", [true]);
        table.count(column, "of 101 to 1,023 rows; of 1,024; of several columns", sizes);
        table.count(column, "with rows at distance 0", [some]);
        let label = "of these with unequal cells; with 0 and -0; with all rows";
        table.count(column, label, [alike.unequal, alike.signs, all]);
        if let Case::Knn(case) = &seen.line.case {
            self.told(case, &seen.answer, &alike, (column, sizes));
        }
    }

    /// Of predictions: what becomes of them as the row itself is dropped, not the first of its order.
    fn told(
        &mut self,
        Knn { matrix, start, stop, split }: &Knn,
        answer: &str,
        alike: &Alike,
        (column, sizes): (&str, [bool; 3]),
    ) {
        let (start, stop, table) = (*start, *stop, &mut self.neighbours);
        let told = answer.split(' ').skip(1).map_while(|word| value(word.as_bytes()));
        let before = before::knn(matrix, start, stop, *split);
        let unlike = told.zip(before).map(|(now, then)| now.to_bits() != then.to_bits());
        let rows: Vec<usize> =
            (start..stop).zip(unlike).filter(|(_, unlike)| *unlike).map(|(row, _)| row).collect();
        let behind = rows.iter().all(|row| alike.behind(*row));
        assert!(behind, "a prediction differs where the order begins with another row alone");
        let (differs, length) = (!rows.is_empty(), stop - start);
        let begins = (start..stop).any(|row| alike.behind(row));
        table.count(column, "a row of the segment whose order begins with another", [begins]);
        table.count(column, "answers that differ from the rule before", [differs]);
        table.add(column, "predictions that differ from it", [rows.len() as u64]);
        let inside = |row: &usize| alike.firsts[*row] >= start;
        let hold = [rows.iter().any(inside), !rows.iter().all(inside)];
        table.count(column, "such answers: by a row of the segment; by one before it", hold);
        table.count(column, "with L = 1; with k = 1", [1, 3].map(|most| differs && length <= most));
        let hold = sizes.map(|hold| differs && hold);
        table.count(column, "with 101 to 1,023 rows; with 1,024; with several columns", hold);
    }
}
