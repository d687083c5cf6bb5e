//! fuzz SEED COUNT ORACLE SHEET WHY: COUNT decks from SEED, most of them changed here and there. Each is
//! answered by the program SHEET and, for a row or two, by the program WHY, and by the reference
//! (`ORACLE decks`, `ORACLE whys`); the answers are compared byte by byte. One line of counts; where
//! answers differ also the first such deck, and status 1.

mod decks;
mod programs;
#[allow(dead_code)]
#[path = "../generate/random.rs"]
mod random;
mod rows;

use programs::{answer, reference};
use random::Random;
use std::collections::BTreeMap;
use std::io::Result;
use std::process::exit;
use std::thread;

/// So many decks are handed to the reference at once.
const LOT: u64 = 1_000;

/// Rows are drawn apart from decks.
const APART: u64 = 0x7765_6c6c_2e77_6879;

struct Programs {
    oracle: String,
    sheet: String,
    why: String,
}

/// A deck and, where a row is asked about, the arguments; the reference's answer.
struct Case<'a> {
    deck: &'a [u8],
    row: Option<Vec<String>>,
    theirs: Vec<u8>,
}

impl Case<'_> {
    fn ours(&self, programs: &Programs) -> Result<Vec<u8>> {
        match &self.row {
            None => answer(&programs.sheet, &[], self.deck),
            Some(words) => answer(&programs.why, words, self.deck),
        }
    }
}

/// The cases of a lot: each deck's sheet, then the rows that are asked about it.
fn cases<'a>(oracle: &str, random: &mut Random, lot: &'a [Vec<u8>]) -> Result<Vec<Case<'a>>> {
    let sheets = reference(oracle, "decks", lot.iter().map(|deck| vec![&deck[..]]))?;
    let mut asked = vec![];
    for (deck, sheet) in lot.iter().zip(&sheets) {
        asked.extend(rows::arguments(random, deck, sheet).into_iter().map(|row| (&deck[..], row)));
    }
    let questions = asked.iter().map(|(deck, row)| vec![rows::word(row), deck]);
    let whys = reference(oracle, "whys", questions)?;
    let sheet = |(deck, theirs): (&'a Vec<u8>, _)| Case { deck, row: None, theirs };
    let why = |((deck, row), theirs)| Case { deck, row: Some(row), theirs };
    Ok(lot.iter().zip(sheets).map(sheet).chain(asked.into_iter().zip(whys).map(why)).collect())
}

/// What the programs answer, on every processor at hand.
fn ours(programs: &Programs, cases: &[Case]) -> Result<Vec<Vec<u8>>> {
    let workers = thread::available_parallelism()?.get();
    let answers = |part: &[Case]| part.iter().map(|case| case.ours(programs)).collect();
    thread::scope(|scope| {
        let parts = cases.chunks(cases.len().div_ceil(workers));
        let started: Vec<_> = parts.map(|part| scope.spawn(|| answers(part))).collect();
        let ended = started.into_iter().map(|worker| worker.join().expect("no worker panics"));
        ended.collect::<Result<Vec<Vec<_>>>>().map(|parts| parts.concat())
    })
}

/// How many answers begin with each word.
#[derive(Default)]
struct Counts(BTreeMap<String, u64>);

impl Counts {
    fn count(&mut self, answer: &[u8]) {
        let word = answer.split(|byte| *byte == b'\t').next().unwrap_or_default();
        let word = if word.is_empty() { "no row".into() } else { String::from_utf8_lossy(word) };
        *self.0.entry(word.into_owned()).or_default() += 1;
    }

    fn told(&self) -> String {
        self.0.iter().map(|(word, count)| format!("{count} {word}")).collect::<Vec<_>>().join(", ")
    }

    fn all(&self) -> u64 {
        self.0.values().sum()
    }
}

/// A case whose answers differ, as it is shown.
fn shown(case: &Case, ours: &[u8]) -> String {
    let bytes = |bytes: &[u8]| bytes.escape_ascii().to_string();
    let row = case.row.as_ref().map_or(String::new(), |words| format!("arguments: {words:?}\n"));
    let (deck, theirs, ours) = (bytes(case.deck), bytes(&case.theirs), bytes(ours));
    format!("{row}deck: {deck}\nreference: {theirs}\nprogram: {ours}")
}

fn run(seed: u64, count: u64, programs: &Programs) -> Result<bool> {
    let (mut random, mut drawn) = (Random(seed), Random(seed ^ APART));
    let (mut sheets, mut whys) = (Counts::default(), Counts::default());
    let (mut different, mut first) = (0_u64, None);
    let mut left = count;
    while left > 0 {
        let lot: Vec<Vec<u8>> = (0..left.min(LOT)).map(|_| decks::deck(&mut random)).collect();
        left -= lot.len() as u64;
        let cases = cases(&programs.oracle, &mut drawn, &lot)?;
        for (case, ours) in cases.iter().zip(ours(programs, &cases)?) {
            let counts = if case.row.is_none() { &mut sheets } else { &mut whys };
            counts.count(&case.theirs);
            if ours != case.theirs {
                different += 1;
                first.get_or_insert_with(|| shown(case, &ours));
            }
        }
    }
    let (decks, rows) = (sheets.told(), whys.told());
    let asked = whys.all();
    println!(
        "fuzz: {count} decks, seed {seed} ({decks}), {asked} rows ({rows}): {different} differences"
    );
    if let Some(first) = &first {
        println!("{first}");
    }
    Ok(first.is_none())
}

fn main() {
    let arguments: Vec<String> = std::env::args().skip(1).collect();
    let given = match &arguments[..] {
        [seed, count, oracle, sheet, why] => {
            let [oracle, sheet, why] = [oracle, sheet, why].map(String::clone);
            let programs = Programs { oracle, sheet, why };
            seed.parse().ok().zip(count.parse().ok()).zip(Some(programs))
        }
        _ => None,
    };
    let Some(((seed, count), programs)) = given else {
        eprintln!("fuzz SEED COUNT ORACLE SHEET WHY");
        exit(2)
    };
    match run(seed, count, &programs) {
        Ok(same) => exit(i32::from(!same)),
        Err(why) => {
            eprintln!("fuzz: {why}");
            exit(2)
        }
    }
}
