//! Tables of counts, and how they are printed.

use crate::seen::Seen;
use crate::ALL;

/// Counts by label, in the order first told of, and by column; a cell may have several.
pub struct Table {
    columns: &'static [&'static str],
    pub rows: Vec<(String, Vec<Vec<u64>>)>,
}

impl Table {
    pub fn of(columns: &'static [&'static str]) -> Table {
        Table { columns, rows: vec![] }
    }

    fn cell(&mut self, column: &str, label: &str) -> &mut Vec<u64> {
        let found = self.rows.iter().position(|(known, _)| known == label);
        let row = found.unwrap_or_else(|| {
            self.rows.push((label.into(), vec![vec![]; self.columns.len()]));
            self.rows.len() - 1
        });
        let column = self.columns.iter().position(|known| *known == column);
        &mut self.rows[row].1[column.expect("the table has the column")]
    }

    fn fold<const N: usize>(
        &mut self,
        (column, label): (&str, &str),
        numbers: [u64; N],
        fold: fn(u64, u64) -> u64,
    ) {
        let cell = self.cell(column, label);
        cell.resize(N, 0);
        cell.iter_mut().zip(numbers).for_each(|(old, new)| *old = fold(*old, new));
    }

    pub fn add<const N: usize>(&mut self, column: &str, label: &str, numbers: [u64; N]) {
        self.fold((column, label), numbers, |sum, number| sum + number);
    }

    pub fn most<const N: usize>(&mut self, column: &str, label: &str, numbers: [u64; N]) {
        self.fold((column, label), numbers, u64::max);
    }

    pub fn count<const N: usize>(&mut self, column: &str, label: &str, hold: [bool; N]) {
        self.add(column, label, hold.map(u64::from));
    }

    /// Where the count has a meaning; elsewhere the row stands, and the cell is empty.
    pub fn some<const N: usize>(&mut self, column: &str, label: &str, hold: Option<[bool; N]>) {
        match hold {
            Some(hold) => self.count(column, label, hold),
            None => drop(self.cell(column, label)),
        }
    }

    /// That for a size, which is a wide one or not as the case is.
    pub fn sized<const N: usize>(
        &mut self,
        seen: &Seen,
        wide: bool,
        label: &str,
        hold: Option<[bool; N]>,
    ) {
        let meant = label.starts_with("wide: ") == wide;
        self.some(seen.kind(), label, hold.filter(|_| meant));
    }

    /// Under a title; without one, as more rows of the table before. Nothing where nothing was counted.
    pub fn print(&self, title: &str) {
        if self.rows.is_empty() {
            return;
        }
        let shown = |cell: &Vec<u64>| cell.iter().map(commas).collect::<Vec<_>>().join("; ");
        let sentences = self.columns == SENTENCES;
        if !title.is_empty() {
            println!("\n{title}\n");
        }
        if !title.is_empty() && !sentences {
            let names = self.columns.iter().map(|name| if *name == ALL { "all" } else { name });
            println!("| | {} |", names.collect::<Vec<_>>().join(" | "));
            println!("|---|{}", "---:|".repeat(self.columns.len()));
        }
        for (label, row) in &self.rows {
            let cells = row.iter().map(shown).collect::<Vec<_>>().join(" | ");
            match sentences {
                true => println!("{label}: {cells}"),
                false => println!("| {label} | {cells} |"),
            }
        }
    }
}

/// The one column of numbers that are no table.
pub const SENTENCES: [&str; 1] = [""];

fn commas(number: &u64) -> String {
    match number {
        0..1_000 => number.to_string(),
        _ => format!("{},{:03}", commas(&(number / 1_000)), number % 1_000),
    }
}
