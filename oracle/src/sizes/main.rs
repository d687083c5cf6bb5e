//! sizes GENERATE ORACLE CASES [PART..]: makes the cases of docs/COMPARISON.md's runs, in the file CASES
//! one seed after another, has them answered by the oracle, and prints what they come to: the page's
//! tables in Markdown, the numbers of its sentences one to a line. Of the parts named, or of all.

#[path = "../before.rs"]
mod before;
// Every number that applies to a case, not the lowest alone, is what the oracle's rules say.
mod closed;
mod draws;
mod later;
mod limits;
mod lots;
mod neighbours;
mod origins;
mod rows;
#[path = "../oracle/rules.rs"]
mod rules;
mod seen;
mod table;

use protocol::Capacities;
use seen::Seen;
use std::collections::BTreeMap;
use std::fs::File;
use std::io::{BufRead, BufReader, Result};
use std::process::{exit, Command, Stdio};
use table::{Table, SENTENCES};

/// What a run is counted for.
#[derive(Clone, Copy, PartialEq)]
enum Part {
    Limits,
    Closed,
    Draws,
    Rows,
    Lots,
    Later,
    Origins,
    Neighbours,
}

use Part::{Closed, Draws, Later, Limits, Lots, Neighbours, Origins, Rows};

const PARTS: [(&str, Part); 8] = [
    ("limits", Limits),
    ("closed", Closed),
    ("draws", Draws),
    ("rows", Rows),
    ("lots", Lots),
    ("later", Later),
    ("origins", Origins),
    ("neighbours", Neighbours),
];

const ALL: &str = "";

/// What for, seeds from the first to the last, how many cases of each, the kinds.
const RUNS: [(&[Part], u64, u64, u64, &str); 31] = [
    (&[Limits], 421, 424, 1_500, "limit edge"),
    (&[Limits], 721, 724, 1_500, "closed limit edge"),
    (&[Limits], 821, 822, 1_500, "wild stored limit edge"),
    (&[Limits], 921, 922, 1_500, "why limit edge"),
    (&[Limits], 1_141, 1_142, 1_500, "feed lot close fedtree limit edge"),
    (&[Limits, Neighbours], 1_221, 1_222, 1_500, "knn order limit edge"),
    (&[Limits], 431, 434, 100, "wide"),
    (&[Limits], 731, 734, 100, "closed wide"),
    (&[Limits], 831, 832, 100, "wild stored wide"),
    (&[Limits], 931, 932, 100, "why wide"),
    (&[Limits], 1_151, 1_154, 100, "feed lot fedtree wide"),
    (&[Closed], 701, 701, 101_000, "closed cand"),
    (&[Closed], 702, 702, 101_000, "closed search"),
    (&[Closed, Origins], 704, 704, 101_000, "closed tree"),
    (&[Closed], 705, 705, 101_000, "closed pick"),
    (&[Closed], 706, 706, 101_000, "closed guesses"),
    (&[Closed], 707, 707, 101_000, "closed perm"),
    (&[Draws, Origins], 801, 802, 100_000, "wild"),
    (&[Draws, Origins], 611, 612, 100_000, "stored"),
    (&[Draws, Origins], 708, 708, 101_000, "closed wild"),
    (&[Rows, Origins], 901, 902, 100_000, "why"),
    (&[Rows, Origins], 709, 709, 101_000, "closed why"),
    (&[Lots], 1_101, 1_102, 100_000, "feed"),
    (&[Lots], 1_111, 1_112, 100_000, "lot"),
    (&[Lots], 1_121, 1_121, 101_000, "close"),
    (&[Later], 1_131, 1_132, 100_000, "fedtree"),
    (&[Later], 710, 710, 101_000, "closed fedtree"),
    (&[Origins], 101, 110, 100_000, ALL),
    (&[Origins], 1_001, 1_001, 101_000, "tree"),
    (&[Neighbours], 1_201, 1_202, 100_000, "knn"),
    (&[Neighbours], 1_211, 1_211, 101_000, "order"),
];

const DRAWS: [&str; 3] = ["wild", "stored", "closed wild"];
const ROWS: [&str; 2] = ["why", "closed why"];
const LOTS: [&str; 2] = ["feed", "lot"];
const LATER: [&str; 2] = ["fedtree", "closed fedtree"];
const NEIGHBOURS: [&str; 4] = ["knn", "order", "knn limit edge", "order limit edge"];

/// The runs whose origins are counted.
const ORIGINS: [&str; 8] =
    [ALL, "tree", "closed tree", "wild", "closed wild", "stored", "why", "closed why"];

/// How often numbers applied together and without others, by column.
type Together = BTreeMap<&'static str, BTreeMap<Vec<usize>, u64>>;

struct Counts {
    limits: Table,
    lengths: Table,
    draws: Table,
    refused_draws: Table,
    rows: Table,
    refused_rows: Table,
    lots: Table,
    later: Table,
    refused_later: Table,
    origins: Table,
    neighbours: Table,
    sentences: Table,
    together: Together,
    /// The rows that the two cases before asked about, and of how many.
    asked: [(usize, usize); 2],
    cuttings: lots::Cuttings,
}

impl Counts {
    fn print(&mut self) {
        for (column, together) in &self.together {
            for (count, label) in [(1, "one alone"), (2, "two without others")] {
                let of = together.iter().filter(|(numbers, _)| numbers.len() == count);
                let cases: Vec<u64> = of.map(|(_, cases)| *cases).collect();
                let fewest = cases.iter().copied().min().unwrap_or(0);
                let label = format!("{column}, refusals: {label}, kinds of them; the rarest");
                self.sentences.add("", &label, [cases.len() as u64, fewest]);
            }
        }
        if !self.cuttings.is_empty() {
            let label = "feed: ways to cut up to 7 cells up, of each n and d: seen; there are";
            self.sentences.add("", label, lots::ways(&self.cuttings));
        }
        self.limits.print("At the limits");
        self.lengths.print("Closed");
        self.draws.print("Draws");
        self.refused_draws.print("");
        self.rows.print("Rows");
        self.refused_rows.print("");
        self.lots.print("Lots");
        self.later.print("Later sheets");
        self.refused_later.print("");
        self.origins.print("Origins");
        self.neighbours.print("Neighbours");
        self.sentences.rows.sort();
        self.sentences.print("Sentences");
    }
}

/// Has a seed's cases made and answered, and hands each on.
fn each(
    [generate, oracle, path]: &[String; 3],
    (seed, count, kinds): (u64, u64, &str),
    mut tell: impl FnMut(&Seen),
) -> Result<()> {
    let words = [seed.to_string(), count.to_string()];
    let mut generate = Command::new(generate);
    generate.args(words).args(kinds.split_whitespace()).stdout(File::create(path)?);
    let wide = kinds.split(' ').any(|kind| kind == "wide").then_some("--wide");
    let mut oracle = Command::new(oracle);
    oracle.args(wide).stdout(Stdio::piped());
    if !generate.status()?.success() {
        exit(1)
    }
    let mut oracle = oracle.stdin(File::open(path)?).spawn()?;
    let mut cases = BufReader::new(File::open(path)?);
    let answers = BufReader::new(oracle.stdout.take().expect("it is piped"));
    let capacities = if wide.is_some() { Capacities::WIDE } else { Capacities::PAGE };
    let mut line = vec![];
    for answer in answers.lines() {
        line.clear();
        cases.read_until(b'\n', &mut line)?;
        if let Some(seen) = Seen::of(&line, capacities, answer?) {
            tell(&seen);
        }
    }
    if !oracle.wait()?.success() {
        exit(1)
    }
    Ok(())
}

fn main() -> Result<()> {
    let mut arguments: Vec<String> = std::env::args().skip(1).collect();
    let names = arguments.split_off(arguments.len().min(3));
    let part = |name: &String| PARTS.into_iter().find(|(known, _)| known == name);
    let named: Option<Vec<(&str, Part)>> = names.iter().map(part).collect();
    let (Ok(paths), Some(named)) = (arguments.try_into(), named) else {
        let known = PARTS.map(|(name, _)| name).join(" ");
        eprintln!("sizes GENERATE ORACLE CASES [PART..], of {known}");
        exit(2)
    };
    let asked = |part| named.is_empty() || named.iter().any(|(_, one)| *one == part);
    let mut counts = Counts {
        limits: Table::of(&["gain", "search", "stored", "tree", "wild", "why", "fedtree"]),
        lengths: Table::of(&["cand", "search", "pick", "guesses", "perm"]),
        draws: Table::of(&DRAWS),
        refused_draws: Table::of(&DRAWS),
        rows: Table::of(&ROWS),
        refused_rows: Table::of(&ROWS),
        lots: Table::of(&LOTS),
        later: Table::of(&LATER),
        refused_later: Table::of(&LATER),
        origins: Table::of(&ORIGINS),
        neighbours: Table::of(&NEIGHBOURS),
        sentences: Table::of(&SENTENCES),
        together: Together::new(),
        asked: [(0, 0); 2],
        cuttings: lots::Cuttings::new(),
    };
    for (parts, first, last, count, kinds) in RUNS {
        let parts: Vec<Part> = parts.iter().copied().filter(|part| asked(*part)).collect();
        let seeds = if parts.is_empty() { 0..0 } else { first..last + 1 };
        for seed in seeds {
            each(&paths, (seed, count, kinds), |seen| {
                for part in &parts {
                    match part {
                        Limits => counts.limits(seen, kinds.contains("wide")),
                        Closed => counts.closed(seen),
                        Draws => counts.draws(seen, kinds),
                        Rows => counts.rows(seen, kinds),
                        Lots => counts.lots(seen, kinds),
                        Later => counts.later(seen, kinds),
                        Origins => counts.origins(seen, kinds),
                        Neighbours => counts.neighbours(seen, kinds),
                    }
                }
            })?;
        }
    }
    counts.print();
    Ok(())
}
