//! The answer line of a case.

use crate::{feed, original, rules, why};
use protocol::{
    Cand, Capacities, Case, Close, Curve, FedTree, Feed, Gain, Guesses, Knn, Line, Lot, Order,
    Perm, Pick, Rel, Search, Stored, Tree, Why, Wild, F32,
};
use std::panic::{catch_unwind, AssertUnwindSafe};

/// An answer and where it comes from: the Rust, the rules, or the reading of the line.
pub struct Answer {
    pub text: String,
    pub source: &'static str,
}

/// The answer to a line, or why the Rust and the rules don't agree about it.
pub fn answer(line: &[u8], capacities: Capacities) -> Result<Answer, String> {
    let from_line = |text: &str| Ok(Answer { text: text.into(), source: "line" });
    let Some(line) = Line::read(line, capacities) else { return from_line("unknown") };
    if line.too_large {
        return from_line("too large");
    }
    let verdict = rules::judge(&line.case, line.lends_too_little());
    let own = original::own(&line.case);
    for (number, refuses) in &own {
        if *refuses != verdict.says(*number) {
            return Err(format!("refusal {number}: the Rust says {refuses}, the rules do not"));
        }
    }
    let lowest = verdict.lowest();
    if lowest.is_none_or(|number| number >= 7) && line.asks_too_much() {
        return from_line("too large");
    }
    if let Some(number) = lowest {
        let source = if own.contains(&(number, true)) { "rust" } else { "rules" };
        return Ok(Answer { text: format!("refused {number} kept"), source });
    }
    let source = if matches!(line.case, Case::Close(_)) { "rules" } else { "rust" };
    match catch_unwind(AssertUnwindSafe(|| told(&line.case))) {
        Ok(text) => Ok(Answer { text, source }),
        Err(_) => Err("the Rust panics on a case that the rules admit".into()),
    }
}

/// The line of an admitted case.
fn told(case: &Case) -> String {
    let values = values(case);
    let agrees = match case {
        Case::FedTree(case) => feed::of_its_matrix(case).is_none_or(|tree| tree == values),
        _ => true,
    };
    format!("ok{values} {}", if agrees { "kept" } else { "disagrees" })
}

/// What the Rust answers to an admitted case.
fn values(case: &Case) -> String {
    match case {
        Case::Rel(Rel { r, n }) => Rel::answer(original::rel(*r, *n)),
        Case::F32(F32 { x }) => F32::answer(*x as f32),
        Case::Cand(Cand { segment }) => {
            let rows = original::cand(segment).expect("an admitted segment has candidates");
            Cand::answer(&rows)
        }
        Case::Gain(Gain { matrix, start, stop, split }) => {
            let (gain, sums) = original::gain(matrix, *start, *stop, *split);
            Gain::answer(gain, &sums)
        }
        Case::Search(Search { matrix, segment }) => {
            let found = original::search(matrix, segment);
            Search::answer(found.split, found.gain)
        }
        Case::Stored(case) => Stored::answer(&original::stored(case)),
        Case::Tree(case) => Tree::answer(&original::tree(case)),
        Case::Wild(Wild(case)) => Wild::answer(&original::tree(case)),
        Case::Why(case) => Why::answer(&why::why(case)),
        Case::Feed(case) => {
            let (steps, closing, sums) = feed::feed(case);
            Feed::answer(&steps, closing, &sums)
        }
        Case::Lot(case @ Lot { state, cells, .. }) => {
            Lot::answer(state.count + cells.len(), &feed::lot(case))
        }
        Case::Close(Close { state }) => Close::answer(state.count),
        Case::FedTree(case) => FedTree::answer(&feed::tree(case)),
        Case::Order(Order { matrix }) => {
            let (ordering, distances) = original::order(matrix);
            Order::answer(&ordering, &distances)
        }
        Case::Knn(Knn { matrix, start, stop, split }) => {
            Knn::answer(&original::knn(matrix, *start, *stop, *split))
        }
        Case::Curve(Curve { l0, l1 }) => Curve::answer(&original::curve(l0, l1)),
        Case::Pick(Pick { segment, guess, curve }) => {
            let (split, gain) = original::pick(segment, *guess, curve);
            Pick::answer(split, gain)
        }
        Case::Guesses(Guesses { segment }) => Guesses::answer(&original::guesses(segment)),
        Case::Perm(case) => {
            let (counter, p, significant) = original::perm(case);
            Perm::answer(counter, p, significant)
        }
    }
}
