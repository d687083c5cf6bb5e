//! Rows to ask a deck about: what the program is started with.

use crate::random::Random;

/// Words at the edges of what is a row, and some that are none.
const EDGES: &str = "0|1|256|4294967295|4294967296|9999999999|10000000000||00|01|+1|-1|1 |0x1|1\t2";

/// The arguments that a deck is asked with, for each row: two where it has a sheet. Now and then they are
/// none, or more than one.
pub fn arguments(random: &mut Random, deck: &[u8], sheet: &[u8]) -> Vec<Vec<String>> {
    let (n, m) = (number(deck, 1), number(deck, 3));
    let cuts: Vec<u64> = cuts(sheet).collect();
    let rows = if sheet.starts_with(b"cuts") { 2 } else { 1 };
    let mut one = |_| match random.one_in(200) {
        true => vec!["1".into(); random.of(&[0, 2, 3])],
        false => vec![row(random, n, m, &cuts)],
    };
    (0..rows).map(&mut one).collect()
}

/// The row that is asked about; where there is not one argument, a word that is no row.
pub fn word(arguments: &[String]) -> &[u8] {
    match arguments {
        [word] => word.as_bytes(),
        _ => b"",
    }
}

/// A field of a deck's first line as a number, or some number.
fn number(deck: &[u8], place: usize) -> u64 {
    let line = deck.split(|byte| *byte == b'\n').next().unwrap_or_default();
    let field = line.split(|byte| *byte == b'\t').nth(place);
    let text = field.and_then(|field| std::str::from_utf8(field).ok());
    text.and_then(|text| text.parse().ok()).unwrap_or(8)
}

/// The rows that a sheet lists.
fn cuts(sheet: &[u8]) -> impl Iterator<Item = u64> + '_ {
    let lines = sheet.split(|byte| *byte == b'\n').filter(|line| line.starts_with(b"cut\t"));
    lines.map(|line| number(line, 1))
}

/// Any row; one that is cut, or beside it; one as far as m from a cut or from an end of the run, or beside
/// it; the last, or one past the run; a word at an edge.
fn row(random: &mut Random, n: u64, m: u64, cuts: &[u64]) -> String {
    let any = random.below(n.max(1));
    let cut = if cuts.is_empty() { any } else { random.of(cuts) };
    let (start, stop) = (random.of(&[0, cut]), random.of(&[n, cut]));
    let edges: Vec<&str> = EDGES.split('|').collect();
    let row = match random.weighted(&[6, 4, 2, 2, 2, 1]) {
        0 => any,
        1 => cut.saturating_add(random.of(&[0, 0, 1])),
        2 => start.saturating_add(m).saturating_sub(random.below(2)),
        3 => stop.saturating_add(random.below(3)).saturating_sub(m).saturating_sub(1),
        4 => random.of(&[n.saturating_sub(1), n, n.saturating_add(1)]),
        _ => return random.of(&edges).into(),
    };
    row.to_string()
}
