//! Cases that document 01 admits and that the page's capacities don't: for the wide ones.

use crate::draft::Draft;
use crate::draws::{self, Sort};
use crate::kinds::{matrix, pick};
use crate::limits::{long_list, permuted};
use crate::random::Random;
use crate::values::{fine_layers, SMALLEST_LAYER};

/// The kinds that have such cases.
pub const KINDS: [&str; 13] = [
    "cand", "gain", "search", "stored", "tree", "wild", "why", "feed", "lot", "fedtree", "pick",
    "guesses", "perm",
];

/// Makes such a case of one.
pub fn at_wide(random: &mut Random, draft: &mut Draft) {
    draft.short = None;
    match draft.kind {
        "gain" | "feed" | "lot" => columns(random, draft),
        "search" => match random.below(2) {
            0 => columns(random, draft),
            _ => listed(random, draft),
        },
        "stored" | "wild" | "why" | "fedtree" if random.one_in(2) => drawn(random, draft),
        "stored" | "tree" | "wild" | "why" | "fedtree" => layered(random, draft),
        "perm" => {
            let some = random.between(263, 4_095);
            let (p, length) = random.of(&[(999, 263), (999, some), (999, 4_096), (1_000, 4_096)]);
            let count = random.between(1, 3);
            permuted(random, draft, p, length, count);
        }
        _ => {
            listed(random, draft);
            if draft.kind == "pick" {
                pick(random, draft);
            }
        }
    }
}

/// 58 to 64 columns of 4,096 rows.
fn columns(random: &mut Random, draft: &mut Draft) {
    let d = random.between(58, 64);
    let d = random.of(&[d, 64]);
    matrix(random, draft, 4_096, d);
    (draft.start, draft.stop, draft.split) = (0, 4_096, random.between(0, 4_096));
    (draft.m, draft.forbidden) = (random.of(&[1, 7, 800, draft.most_m(4_096)]), None);
}

/// A list of more than 1,024 pairs, now and then of one past the capacity.
fn listed(random: &mut Random, draft: &mut Draft) {
    if !draft.cells.is_empty() {
        let d = random.between(1, 2);
        matrix(random, draft, 4_096, d);
    }
    (draft.n, draft.start, draft.stop) = (4_096, 0, 4_096);
    draft.m = random.of(&[1, 5, 300, draft.most_m(4_096)]);
    let some = random.between(1_026, 49_999);
    let pairs = random.of(&[1_025, some, some, 50_000, 50_000, 50_001]);
    draft.forbidden = Some(long_list(random, 4_096, pairs));
}

/// More than 4,096 draws, now and then one past the capacity, or a last one that is refused. Few are long
/// enough or none, so that the list is gone through to its end; or many.
fn drawn(random: &mut Random, draft: &mut Draft) {
    let rows = random.between(20, 4_095);
    let n = random.of(&[20, rows, 4_096, 4_096]);
    matrix(random, draft, n, 1);
    (draft.layers, draft.forbidden) = (vec![], None);
    draft.m = random.of(&[1, n * 2 / 5, n * 9 / 20, n]);
    let some = random.between(4_097, 99_999);
    let count = random.of(&[4_097, some, some, 100_000, 100_000, 100_001]);
    let sort = random.of(&[Sort::Any, Sort::Any, Sort::Short, Sort::Crossed]);
    draws::draw(random, draft, sort, count);
    draft.w = draws::most(random, draft);
    let last = draft.draws.pop();
    draft.draws.extend(random.of(&[None, Some(n + 1), last, last, last, last]));
}

/// A run of the most columns, the most layers, the most records, of a tree also a deep one, or a long
/// list.
fn layered(random: &mut Random, draft: &mut Draft) {
    matrix(random, draft, 4_096, 1);
    (draft.m, draft.forbidden) = (1, None);
    (draft.layers, draft.draws) = (vec![], vec![]);
    let seldom_cut = random.of(&[f64::MAX, 40.0, 23.0]);
    match random.below(4) {
        0 => {
            columns(random, draft);
            draft.m = random.of(&[1, 20, 300, 800]);
            draft.layers = random.of(&[&[][..], &[0.3, 0.1], &[0.5; 64]]).into();
        }
        1 => draft.layers = vec![SMALLEST_LAYER; random.of(&[33, 64, 64])],
        2 => {
            let fine = random.of(&[32, 60, 63, 64]);
            draft.layers = fine_layers(random, draft.closed, fine);
            draft.layers.resize(64, SMALLEST_LAYER);
            draft.value = seldom_cut;
            if random.one_in(3) {
                (draft.cells, draft.value) = (vec![0.0; 4_096], -1.0);
            }
        }
        _ => {
            listed(random, draft);
            (draft.m, draft.value) = (random.of(&[300, 700]), seldom_cut);
            draft.layers = vec![0.5, 0.3];
        }
    }
}
