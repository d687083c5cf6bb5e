//! replay [--wide]: answers each case of standard input (docs/REPLAY.md) through the functions that
//! hosts call. What is told of a case is what the library answers; nothing is judged here. A kind's calls
//! stand in one of these files, beside the file of that name in ../protocol. Where the crate panics, since
//! the library answers what it never should, that is told, and the next case is answered.

mod curves;
mod feed;
mod lengths;
mod lent;
mod mean;
mod neighbours;
mod outcome;
mod segments;
mod tree;
mod two_step;
mod why;

use outcome::Outcome;
use protocol::{Capacities, Case, Line};
use std::io::{stdin, stdout, BufRead, BufWriter, Result, Write};
use std::panic::catch_unwind;

/// A kind of case that can be called: lends what the line says, calls, and tells what came of it.
trait Call {
    fn call(&self, line: &Line) -> Outcome;
}

fn called(line: &Line) -> Outcome {
    match &line.case {
        Case::Rel(case) => case.call(line),
        Case::F32(case) => case.call(line),
        Case::Cand(case) => case.call(line),
        Case::Gain(case) => case.call(line),
        Case::Search(case) => case.call(line),
        Case::Stored(case) => case.call(line),
        Case::Tree(case) => case.call(line),
        Case::Wild(case) => case.call(line),
        Case::Why(case) => case.call(line),
        Case::Feed(case) => case.call(line),
        Case::Lot(case) => case.call(line),
        Case::Close(case) => case.call(line),
        Case::FedTree(case) => case.call(line),
        Case::Order(case) => case.call(line),
        Case::Knn(case) => case.call(line),
        Case::Curve(case) => case.call(line),
        Case::Pick(case) => case.call(line),
        Case::Guesses(case) => case.call(line),
        Case::Perm(case) => case.call(line),
    }
}

fn answer(line: &[u8], capacities: Capacities) -> String {
    match Line::read(line, capacities) {
        None => "unknown".into(),
        Some(line) if line.too_large => outcome::TOO_LARGE.into(),
        Some(line) => called(&line).answer(&line),
    }
}

fn main() -> Result<()> {
    let arguments: Vec<String> = std::env::args().skip(1).collect();
    let words: Vec<&str> = arguments.iter().map(String::as_str).collect();
    let Some(capacities) = Capacities::named(&words) else {
        eprintln!("replay [--wide]");
        std::process::exit(2)
    };
    let (mut input, mut output) = (stdin().lock(), BufWriter::new(stdout().lock()));
    let mut line = vec![];
    while input.read_until(b'\n', &mut line)? > 0 {
        let answer = catch_unwind(|| answer(&line, capacities));
        writeln!(output, "{}", answer.as_deref().unwrap_or("panics"))?;
        line.clear();
    }
    output.flush()
}
