//! compare CASES ANSWERS OTHERS: compares two files of answers to the cases of a third, line by line.
//! One line of counts, by kind; where answers differ also the first such case, and status 1.

use std::collections::BTreeMap;
use std::env::args;
use std::fs::File;
use std::io::{BufRead, BufReader, Result};
use std::process::exit;

/// So much of a line is shown.
const SHOWN: usize = 1_000;

struct Lines(BufReader<File>);

impl Lines {
    fn of(path: &str) -> Result<Lines> {
        Ok(Lines(BufReader::new(File::open(path)?)))
    }

    /// The next line without its LF; nothing past the last.
    fn next(&mut self) -> Result<Option<String>> {
        let mut line = vec![];
        if self.0.read_until(b'\n', &mut line)? == 0 {
            return Ok(None);
        }
        Ok(Some(String::from_utf8_lossy(&line).trim_end_matches('\n').into()))
    }
}

/// The kind of a case, whatever stands before it, by the answer `unknown` where the line is none.
fn kind<'a>(case: &'a str, answer: &str) -> &'a str {
    let mut words = case.split(' ').peekable();
    if answer == "unknown" {
        return "no case";
    }
    if words.next_if_eq(&"short").is_some() {
        words.nth(1);
    }
    words.next_if_eq(&"closed");
    words.next().unwrap_or_default()
}

fn shown(line: &str) -> String {
    match line.char_indices().nth(SHOWN) {
        None => line.into(),
        Some((end, _)) => format!("{}..", &line[..end]),
    }
}

/// Where two answers part: the field's number from 1, and both fields.
fn parting(answer: &str, other: &str) -> String {
    let (mut ours, mut theirs) = (answer.split(' '), other.split(' '));
    let mut number = 1;
    loop {
        match (ours.next(), theirs.next()) {
            (Some(a), Some(b)) if a == b => number += 1,
            (a, b) => {
                let word = |word: Option<&str>| shown(word.unwrap_or("nothing"));
                return format!("field {number}: {} and {}", word(a), word(b));
            }
        }
    }
}

#[derive(Default)]
struct Counts {
    cases: usize,
    kinds: BTreeMap<String, usize>,
    different: usize,
    first: Option<String>,
}

impl Counts {
    fn count(&mut self, case: &str, answer: Option<&str>, other: Option<&str>) {
        self.cases += 1;
        *self.kinds.entry(kind(case, answer.unwrap_or_default()).into()).or_default() += 1;
        if answer == other && answer.is_some() {
            return;
        }
        self.different += 1;
        let (answer, other) = (answer.unwrap_or("nothing"), other.unwrap_or("nothing"));
        let number = self.cases;
        self.first.get_or_insert_with(|| {
            let lines = [case, answer, other].map(shown).join("\n");
            format!("line {number}, {}:\n{lines}", parting(answer, other))
        });
    }
}

fn main() -> Result<()> {
    let paths: Vec<String> = args().skip(1).collect();
    let [cases, answers, others] = &paths[..] else {
        eprintln!("compare CASES ANSWERS OTHERS");
        exit(2)
    };
    let (mut cases, mut answers) = (Lines::of(cases)?, Lines::of(answers)?);
    let mut others = Lines::of(others)?;
    let mut counts = Counts::default();
    while let Some(case) = cases.next()? {
        counts.count(&case, answers.next()?.as_deref(), others.next()?.as_deref());
    }
    if let Some(more) = answers.next()?.or(others.next()?) {
        counts.count("no line, but an answer", Some(&more), None);
    }
    let kinds: Vec<_> = counts.kinds.iter().map(|(kind, n)| format!("{kind} {n}")).collect();
    println!("{} cases ({}): {} differences", counts.cases, kinds.join(", "), counts.different);
    if let Some(first) = counts.first {
        println!("{first}");
        exit(1)
    }
    Ok(())
}
