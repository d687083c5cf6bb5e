//! The text programs: a deck's bytes in, the sheet's bytes out, as document 01 has it ("The program"); or,
//! with a row, why it is on the sheet or is not. The grammar and the refusals are a second reading of that
//! section; the tree is the Rust's.

use crate::{original, why};
use protocol::{bits, value, Grown, Lists, Matrix, Shortest, Stored, Tree, Why};

const LONGEST_LINE: usize = 1_024;
const MOST_DIGITS: usize = 10;
const MOST_ROWS: usize = 256;
const MOST_COLUMNS: usize = 64;
const MOST_CELLS: u128 = 2_048;
const MOST_M: usize = 4_096;
const MOST_PAIRS: usize = 64;
const CELLS_IN_ROW: usize = 64;

struct Deck {
    n: usize,
    d: usize,
    m: usize,
    threshold: f64,
    pairs: Vec<[usize; 2]>,
    cells: Vec<i64>,
    rows_begun: bool,
}

/// "numbers have at most 10 digits, no leading zero or plus".
fn number(field: &[u8]) -> Option<usize> {
    let digits = field.iter().all(u8::is_ascii_digit) && (1..=MOST_DIGITS).contains(&field.len());
    let leading = field.len() > 1 && field[0] == b'0';
    let digit = |number: usize, byte: &u8| number * 10 + usize::from(byte - b'0');
    (digits && !leading).then(|| field.iter().fold(0, digit))
}

/// "a minus only on a cell that isn't 0"; the minus is no digit.
fn cell(field: &[u8]) -> Option<i64> {
    match field.strip_prefix(b"-") {
        Some(rest) => number(rest).filter(|number| *number != 0).map(|number| -(number as i64)),
        None => number(field).map(|number| number as i64),
    }
}

fn config(fields: &[&[u8]]) -> Option<Deck> {
    let [b"cfg", n, d, m, threshold] = fields else { return None };
    Some(Deck {
        n: number(n)?,
        d: number(d)?,
        m: number(m)?,
        threshold: value(threshold)?,
        pairs: vec![],
        cells: vec![],
        rows_begun: false,
    })
}

impl Deck {
    /// Takes a line after the first; nothing if it is malformed there.
    fn take(&mut self, fields: &[&[u8]]) -> Option<()> {
        match fields {
            [b"no", a, b] if !self.rows_begun => self.pairs.push([number(a)?, number(b)?]),
            [b"row", cells @ ..] if (1..=CELLS_IN_ROW).contains(&cells.len()) => {
                self.rows_begun = true;
                for field in cells {
                    self.cells.push(cell(field)?);
                }
            }
            _ => return None,
        }
        Some(())
    }

    /// The lowest number that applies.
    fn refusal(&self) -> Option<usize> {
        let size = self.n < 1 || self.n > MOST_ROWS || self.d < 1 || self.d > MOST_COLUMNS;
        let cells = self.n as u128 * self.d as u128;
        let one = size || cells > MOST_CELLS || self.cells.len() as u128 != cells;
        let two = self.m < 1 || self.m > MOST_M;
        let three = self.threshold.is_nan();
        let four = self.cells.iter().any(|cell| *cell < -32_768 || *cell > 32_767);
        let five = self.pairs.len() > MOST_PAIRS || self.pairs.iter().any(|[a, b]| a > b);
        [one, two, three, four, five].iter().position(|applies| *applies).map(|place| place + 1)
    }

    fn tree(&self) -> Tree {
        let cells = self.cells.iter().map(|cell| *cell as f64).collect();
        let matrix = Matrix { n: self.n, d: self.d, cells };
        let forbidden = Some(self.pairs.concat());
        let shortest = Shortest { m: self.m, closed: false };
        let stored = Stored { matrix, shortest, forbidden, lists: Lists::default() };
        Tree { stored, threshold: self.threshold }
    }
}

/// The deck of an input, or the number of its first malformed line.
fn read(input: &[u8]) -> Result<Deck, usize> {
    let mut deck: Option<Deck> = None;
    for (line, bad) in input.split_inclusive(|byte| *byte == b'\n').zip(1_usize..) {
        let words = line.strip_suffix(b"\n").filter(|_| line.len() <= LONGEST_LINE).ok_or(bad)?;
        let fields: Vec<&[u8]> = words.split(|byte| *byte == b'\t').collect();
        match &mut deck {
            None => deck = Some(config(&fields).ok_or(bad)?),
            Some(deck) => deck.take(&fields).ok_or(bad)?,
        }
    }
    deck.ok_or(1)
}

fn refused(number: usize) -> String {
    format!("refused\t{number}\n")
}

/// What is written of an input, `answer` being for a deck that is admitted.
fn written(input: &[u8], answer: impl FnOnce(Deck) -> String) -> String {
    let deck = match read(input) {
        Ok(deck) => deck,
        Err(line) => return format!("bad\t{line}\n"),
    };
    match deck.refusal() {
        None => answer(deck),
        Some(number) => refused(number),
    }
}

pub fn sheet(input: &[u8]) -> String {
    written(input, |deck| listed(&original::tree(&deck.tree())))
}

fn listed(grown: &Grown) -> String {
    let mut sheet = format!("cuts\t{}\n", grown.cuts.len());
    for row in &grown.cuts {
        let mut cut = grown.nodes.iter().filter(|node| node.significant);
        let choice = cut.find_map(|node| node.choice.as_ref().filter(|c| c.split == *row));
        let choice = choice.expect("a cut is a significant node's choice");
        let (gain, origin) = (bits(choice.gain), choice.origin.text());
        sheet += &format!("cut\t{row}\t{gain}\t{}\t{}\t{origin}\n", choice.start, choice.stop);
    }
    sheet + &format!("nodes\t{}\n", grown.nodes.len())
}

/// The row that a word is: a number as a deck has it.
pub fn row(word: &[u8]) -> Option<usize> {
    number(word)
}

/// The reason's word, the row, what goes with the reason, the segment's ends, and of a cut its origin.
pub fn why(input: &[u8], row: usize) -> String {
    written(input, |deck| {
        if row >= deck.n {
            return refused(8);
        }
        let mut words = why::why(&Why { tree: deck.tree(), row }).words();
        words.insert(1, row.to_string());
        words.join("\t") + "\n"
    })
}
