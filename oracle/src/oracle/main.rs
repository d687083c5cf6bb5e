//! oracle [--source] [--wide]: answers each case of standard input (docs/REPLAY.md) with the original
//! Rust; `--source` adds where the answer comes from: rust, rules or line.
//! oracle deck: the text program, standard input to standard output.
//! oracle why ROW: the one that says why a row is on the sheet or is not, likewise.
//! oracle decks, oracle whys: the same for many decks, each deck and each answer with its length (u64)
//! before it; before a deck of the second its row, a word with its length, and of one that is no row the
//! answer is empty.

mod answer;
mod deck;
mod feed;
mod original;
mod rules;
mod why;

use protocol::Capacities;
use std::io::{stdin, stdout, BufRead, BufWriter, Read, Result, Write};
use std::process::exit;

/// A tree of 4,096 rows can be thousands deep, and the Rust grows it by calling itself.
const STACK: usize = 1 << 30;

fn answers(with_source: bool, capacities: Capacities) -> Result<()> {
    let (mut input, mut output) = (stdin().lock(), BufWriter::new(stdout().lock()));
    let mut line = vec![];
    while input.read_until(b'\n', &mut line)? > 0 {
        let answer = answer::answer(&line, capacities).unwrap_or_else(|why| {
            eprintln!("oracle: {why}: {}", String::from_utf8_lossy(&line).trim_end());
            exit(1)
        });
        match with_source {
            true => writeln!(output, "{} {}", answer.text, answer.source)?,
            false => writeln!(output, "{}", answer.text)?,
        }
        line.clear();
    }
    output.flush()
}

/// Answers the deck of standard input.
fn one(answer: impl FnOnce(&[u8]) -> String) -> Result<()> {
    let mut input = vec![];
    stdin().lock().read_to_end(&mut input)?;
    stdout().lock().write_all(answer(&input).as_bytes())
}

/// The bytes behind their length.
fn next(input: &mut impl Read) -> Result<Vec<u8>> {
    let mut long = [0; 8];
    input.read_exact(&mut long)?;
    let mut bytes = vec![0; u64::from_le_bytes(long) as usize];
    input.read_exact(&mut bytes)?;
    Ok(bytes)
}

/// Answers decks until there are no more.
fn many<I: BufRead>(mut input: I, answer: impl Fn(&mut I) -> Result<String>) -> Result<()> {
    let mut output = BufWriter::new(stdout().lock());
    while !input.fill_buf()?.is_empty() {
        let answer = answer(&mut input)?;
        output.write_all(&(answer.len() as u64).to_le_bytes())?;
        output.write_all(answer.as_bytes())?;
    }
    output.flush()
}

/// Answers for the row that the word is; ends where it is none.
fn row(word: &str) -> Result<()> {
    let Some(row) = deck::row(word.as_bytes()) else {
        eprintln!("oracle: no row: {word}");
        exit(2)
    };
    one(|deck| deck::why(deck, row))
}

fn run() -> Result<()> {
    let arguments: Vec<String> = std::env::args().skip(1).collect();
    let words: Vec<&str> = arguments.iter().map(String::as_str).collect();
    let (with_source, rest) = match &words[..] {
        ["deck"] => return one(deck::sheet),
        ["decks"] => return many(stdin().lock(), |input| Ok(deck::sheet(&next(input)?))),
        ["why", word] => return row(word),
        ["whys"] => {
            return many(stdin().lock(), |input| {
                let (word, deck) = (next(input)?, next(input)?);
                Ok(deck::row(&word).map_or(String::new(), |row| deck::why(&deck, row)))
            })
        }
        ["--source", rest @ ..] => (true, rest),
        rest => (false, rest),
    };
    let Some(capacities) = Capacities::named(rest) else {
        eprintln!("oracle [--source] [--wide], oracle deck, why ROW, decks or whys");
        exit(2)
    };
    answers(with_source, capacities)
}

fn main() {
    std::panic::set_hook(Box::new(|_| ()));
    let thread = std::thread::Builder::new().stack_size(STACK).spawn(run);
    match thread.expect("a thread starts").join() {
        Ok(Ok(())) => (),
        Ok(Err(why)) => {
            eprintln!("oracle: {why}");
            exit(1)
        }
        Err(_) => {
            eprintln!("oracle: the Rust panics");
            exit(1)
        }
    }
}
