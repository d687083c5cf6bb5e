//! generate SEED COUNT [KIND..]: COUNT cases in the form of docs/REPLAY.md, of the kinds named or
//! of all, the same for the same arguments. Most are small and admitted; the others try each
//! refusal alone and two at a time, room that is short, limits, and lines that are no case.

mod draft;
mod draws;
mod feed;
mod kinds;
mod limits;
mod neighbours;
mod random;
mod rows;
mod spoil;
mod values;
mod wide;

use draft::Draft;
use kinds::{DRAWING, KINDS};
use random::Random;
use std::io::Write;

/// Sorts that may be named beside the kinds: of the kinds named, or of any where none is.
const LIMIT: &str = "limit";
const EDGE: &str = "edge";
const WIDE: &str = "wide";
const UNKNOWN: &str = "unknown";

/// May be named too: every case of a kind that takes the prefix `closed` has it, and where no kind is
/// named there are only such kinds. Otherwise one case in so many has it.
const CLOSED: &str = "closed";
const SOME_CLOSED: u64 = 3;

fn kind(random: &mut Random, sort: &'static str, kinds: &[&'static str]) -> &'static str {
    if KINDS.contains(&sort) {
        return sort;
    }
    let kind = random.of(kinds);
    match sort == WIDE && !wide::KINDS.contains(&kind) {
        true => random.of(&wide::KINDS),
        false => kind,
    }
}

/// A line, or those of a run that is gone through or cut up.
fn lines(random: &mut Random, sort: &str, kind: &'static str, closed_in: u64) -> Vec<String> {
    let mut draft = kinds::draft(random, kind, closed_in);
    if at_limit(random, sort, &mut draft) {
        if kind == rows::ASKING {
            rows::ask(random, &mut draft);
        }
        feed::hand_over(random, &mut draft);
        return vec![draft.line()];
    }
    if sort != UNKNOWN && feed::is_cut_up(random, &draft) {
        return feed::cuttings(random, &mut draft);
    }
    if sort != UNKNOWN && rows::goes_through(random, &draft) {
        return rows::lines(&mut draft);
    }
    spoiled(random, &mut draft);
    match sort == UNKNOWN || random.one_in(250) {
        true => vec![spoil::garble(random, kind, &draft.line())],
        false => vec![draft.line()],
    }
}

/// Whether a case is made one at a limit: where its sort says so, and now and then of any other.
fn at_limit(random: &mut Random, sort: &str, draft: &mut Draft) -> bool {
    match sort {
        EDGE => limits::at_edge(random, draft),
        WIDE => wide::at_wide(random, draft),
        LIMIT => limits::at_limit(random, draft),
        _ if random.one_in(4_000) => limits::at_limit(random, draft),
        _ => return false,
    }
    true
}

/// One or two refusals for some cases; for more of a kind with draws, which has the most.
fn spoiled(random: &mut Random, draft: &mut Draft) {
    let (numbers, slices) = (spoil::numbers(draft.kind), spoil::slices(draft.kind));
    let spoils = match draft.kind {
        _ if numbers.is_empty() => 0,
        kind if DRAWING.contains(&kind) => random.weighted(&[60, 16, 24]),
        _ => random.weighted(&[70, 18, 12]),
    };
    for _ in 0..spoils {
        let number = random.of(numbers);
        spoil::spoil(random, draft, number);
    }
    if slices > 0 && random.one_in(30) {
        draft.short = Some((random.between(1, slices), random.of(&[0, 0, 1])));
    }
}

fn main() {
    let arguments: Vec<String> = std::env::args().skip(1).collect();
    let sorts = KINDS.into_iter().chain([LIMIT, EDGE, WIDE, UNKNOWN, CLOSED]);
    let known = |name: &String| sorts.clone().find(|sort| sort == name);
    let number = |place: usize| arguments.get(place).and_then(|word| word.parse::<u64>().ok());
    let named: Option<Vec<&'static str>> = arguments.iter().skip(2).map(known).collect();
    let (Some(seed), Some(count), Some(mut sorts)) = (number(0), number(1), named) else {
        let sorts = sorts.collect::<Vec<_>>().join(" ");
        eprintln!("generate SEED COUNT [KIND..], of {sorts}");
        std::process::exit(2)
    };
    let (closed_in, any) = match sorts.contains(&CLOSED) {
        true => (1, &kinds::CLOSED[..]),
        false => (SOME_CLOSED, &KINDS[..]),
    };
    sorts.retain(|sort| *sort != CLOSED);
    if sorts.is_empty() {
        sorts = any.to_vec();
    }
    let mut kinds = sorts.clone();
    kinds.retain(|sort| KINDS.contains(sort));
    if kinds.is_empty() {
        kinds = any.to_vec();
    }
    let mut random = Random(seed);
    let mut output = std::io::BufWriter::new(std::io::stdout().lock());
    let mut left = count as usize;
    while left > 0 {
        let sort = random.of(&sorts);
        let kind = kind(&mut random, sort, &kinds);
        let mut lines = lines(&mut random, sort, kind, closed_in);
        lines.truncate(left);
        left -= lines.len();
        if lines.iter().any(|line| writeln!(output, "{line}").is_err()) {
            return;
        }
    }
}
