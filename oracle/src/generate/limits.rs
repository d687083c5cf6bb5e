//! Cases at the limits of documents 01 and 02, at the capacities of docs/REPLAY.md and past them, and
//! cases that the others seldom come to. A long list or a wide matrix makes a slow case of a deep tree,
//! so those that are long in one way are short in another. What is past the capacities is in wide.rs.

use crate::draft::Draft;
use crate::draws::{self, Sort};
use crate::kinds::{matrix, maximum, permutations, pick};
use crate::neighbours;
use crate::random::Random;
use crate::values::{self, fine_layers, SMALLEST_LAYER};

/// The most pairs of a forbidden list, and the most draws.
const PAIRS: u64 = 1_024;
const DRAWS: u64 = 4_096;

/// Makes of a case one at a limit of documents 01 and 02, or of the page's capacities.
pub fn at_limit(random: &mut Random, draft: &mut Draft) {
    draft.short = None;
    match draft.kind {
        "gain" | "search" => searched(random, draft),
        "stored" | "wild" | "why" | "fedtree" if !random.one_in(3) => drawn(random, draft),
        "stored" => layered(random, draft),
        "tree" | "wild" | "why" | "fedtree" => tree(random, draft),
        "lot" => large(random, draft),
        "feed" => fed(random, draft),
        "close" => {
            let (n, d) = random.of(&[(4_096, 64), (4_096, 1), (1, 64), (4_097, 64), (4_096, 65)]);
            let all = n * d;
            (draft.n, draft.d) = (n, d);
            draft.count = random.of(&[all - 1, all, all, all + 1, (1 << 32) + all]);
        }
        "order" | "knn" => {
            let some = random.between(513, 1_022);
            let n = random.of(&[512, some, 1_023, 1_024]);
            let d = random.of(&[1, 1, 2, 3, 8, 64]);
            matrix(random, draft, n, d);
            (draft.start, draft.stop, draft.split) = (random.of(&[0, 0, n / 5]), n, n / 2);
            neighbours::at_limit(random, draft);
        }
        "curve" => {
            let length = random.of(&[4_096, 4_097, 4_098]);
            draft.curves = vec![values::values(random, length), values::values(random, length)];
        }
        "cand" | "guesses" | "pick" => {
            (draft.n, draft.start, draft.stop) = (4_096, 0, 4_096);
            draft.m = random.of(&[1, 5, 300, 2_047, 2_048, 4_096]);
            if random.one_in(2) {
                draft.forbidden = Some(full_list(random, 4_096));
            }
            if draft.kind == "pick" {
                pick(random, draft);
            }
        }
        "perm" => {
            let some = random.between(17, 262);
            let sizes = [(999, 16), (999, some), (64, 4_096), (65, 4_096), (63, 4_097)];
            let (p, length) = sizes[random.weighted(&[1, 3, 1, 1, 1])];
            permuted(random, draft, p, length, 1);
        }
        _ => (),
    }
}

/// A run of the most rows, or of the most columns: 57 columns of 4,096 rows make a line of nearly 4 MB,
/// and so do 3,674 rows of 64; 58 columns of 4,096 rows one that is longer.
fn large(random: &mut Random, draft: &mut Draft) {
    let few = random.of(&[2, 3, 4, 8]);
    let sizes =
        [(4_096, 1), (4_096, few), (4_095, 7), (1_024, 64), (4_096, 57), (3_674, 64), (4_096, 58)];
    let (n, d) = sizes[random.weighted(&[8, 14, 2, 2, 2, 2, 1])];
    matrix(random, draft, n, d);
    (draft.start, draft.stop) = (0, n);
    draft.forbidden = None;
}

/// A run whose cells and sums have room on one line: 28 columns of 4,096 rows make one of nearly 4 MB, and
/// so do 1,830 rows of 64.
fn fed(random: &mut Random, draft: &mut Draft) {
    let few = random.of(&[2, 3, 4, 8]);
    let (n, d) = random.of(&[(4_096, 1), (4_096, few), (4_095, 7), (4_096, 28), (1_830, 64)]);
    matrix(random, draft, n, d);
}

fn searched(random: &mut Random, draft: &mut Draft) {
    large(random, draft);
    draft.m = random.of(&[1, 7, draft.most_m(draft.n)]);
    draft.split = random.between(0, draft.n);
    if draft.d < 57 && random.one_in(2) {
        draft.forbidden = Some(full_list(random, draft.n));
    }
}

/// Draws up to their capacity, now and then one past it: long ones, any, short ones over a long list, or
/// few over one. The tree over them is seldom cut, or everywhere.
fn drawn(random: &mut Random, draft: &mut Draft) {
    let (few, some) = (random.between(3, 9), random.between(10, 4_095));
    let (n, d) = (random.of(&[4_096, 4_096, few, some]), random.of(&[1, 1, 2, 3, 8]));
    matrix(random, draft, n, d);
    (draft.m, draft.value) = (random.of(&[1, 1, 7]), random.of(&[f64::MAX, 40.0, 23.0, 12.0]));
    (draft.layers, draft.forbidden) = (vec![], None);
    let some = random.between(81, DRAWS);
    let most = random.of(&[some, DRAWS, DRAWS, DRAWS, DRAWS + 1]);
    let (sort, count, listed) = random.of(&[
        (Sort::Long, most, false),
        (Sort::Any, most, false),
        (Sort::Short, most, true),
        (Sort::Any, 40, true),
    ]);
    if listed {
        draft.forbidden = Some(full_list(random, n));
    } else if random.one_in(6) {
        (draft.cells, draft.value) = (vec![0.0; (n * d) as usize], -1.0);
    }
    draws::draw(random, draft, sort, count);
    let beside = draws::most(random, draft);
    draft.w = random.of(&[draws::MOST, beside]);
}

/// Many short segments, the most layers, a long list, or a large run.
fn layered(random: &mut Random, draft: &mut Draft) {
    let d = random.of(&[1, 1, 2, 3, 8]);
    matrix(random, draft, 4_096, d);
    (draft.m, draft.forbidden, draft.draws) = (random.of(&[1, 1, 2]), None, vec![]);
    match random.below(12) {
        0 => draft.layers = most_layers(random),
        1..=4 => {
            let most = if draft.closed { 32 } else { 64 };
            let count = random.of(&[6, 20, most / 2, most]);
            draft.layers = fine_layers(random, draft.closed, count);
        }
        5 | 6 => {
            draft.layers = vec![0.5, 0.25, random.of(&[0.1, 0.01, 0.001])];
            draft.forbidden = Some(full_list(random, 4_096));
        }
        _ => {
            large(random, draft);
            draft.m = random.of(&[1, 7, draft.n / 10]);
            draft.layers = random.of(&[&[0.5][..], &[0.3, 0.1], &[0.01], &[0.5; 64]]).into();
        }
    }
}

/// A deep tree, one over a long list, one with the most layers or many short segments, or a large one.
fn tree(random: &mut Random, draft: &mut Draft) {
    matrix(random, draft, 4_096, 1);
    (draft.m, draft.forbidden) = (random.of(&[1, 7, 2_047]), None);
    (draft.layers, draft.draws) = (vec![], vec![]);
    match random.below(16) {
        0 => (),
        1 | 2 => {
            draft.m = random.of(&[1, 1, 7, 2_047, 2_048]);
            (draft.cells, draft.value) = (vec![0.0; 4_096], -1.0);
        }
        3 | 4 => {
            draft.m = random.of(&[1, 40, 300, 700]);
            draft.forbidden = Some(full_list(random, 4_096));
        }
        5 => draft.layers = most_layers(random),
        6 => {
            draft.m = random.of(&[255, 256, 700]);
            draft.layers = vec![SMALLEST_LAYER; random.of(&[32, 33])];
        }
        7..=9 => {
            let most = if draft.closed { 31 } else { 62 };
            let count = random.of(&[5, 20, most - 10, most, most + 1]);
            draft.layers = fine_layers(random, draft.closed, count);
            (draft.m, draft.value) = (1, random.of(&[f64::MAX, 40.0, 23.0, 12.0]));
        }
        _ => {
            large(random, draft);
            draft.m = random.of(&[1, 20, 300, 800]);
            draft.layers = random.of(&[&[][..], &[0.5], &[0.3, 0.1], &[0.5; 64]]).into();
        }
    }
}

fn most_layers(random: &mut Random) -> Vec<f64> {
    random.of(&[&[SMALLEST_LAYER; 3][..], &[SMALLEST_LAYER; 32], &[0.5; 64], &[0.5; 101]]).into()
}

/// A list up to its capacity, now and then one pair past it.
fn full_list(random: &mut Random, n: u64) -> Vec<u64> {
    let some = random.between(129, PAIRS);
    let pairs = random.of(&[some, PAIRS, PAIRS, PAIRS, PAIRS + 1]);
    long_list(random, n, pairs)
}

/// So many pairs: seams of every few rows, stretches in any order that overlap, pairs that bar nothing,
/// of more than 2,000 the most; mostly some row is left.
pub fn long_list(random: &mut Random, n: u64, pairs: u64) -> Vec<u64> {
    let longest = random.of(&[1, 2, 4, 30]);
    let seldom = (pairs / PAIRS).max(1);
    let mut list: Vec<[u64; 2]> = (0..pairs)
        .map(|place| {
            let a = if longest < 4 { place * n / pairs } else { random.below(n) };
            let long = if random.one_in(seldom) { longest } else { 0 };
            [a, a + random.below(long + 1)]
        })
        .collect();
    if random.one_in(2) {
        random.shuffle(&mut list);
    }
    list.concat()
}

/// P permutations of `count` curves of a length.
pub fn permuted(random: &mut Random, draft: &mut Draft, p: u64, length: u64, count: u64) {
    let most = draft.most_m(length);
    (draft.p, draft.m) = (p, random.of(&[1, 7, most]).min(most));
    draft.curves = (0..count).map(|_| values::values(random, length)).collect();
    draft.bases = values::values(random, count);
    permutations(random, draft, length);
    draft.max = maximum(random, draft);
}

/// Makes of a case one that the others seldom or never come to. A kind that has none gives a case at a
/// limit, and the others do now and then.
pub fn at_edge(random: &mut Random, draft: &mut Draft) {
    draft.short = None;
    if random.one_in(3) {
        return at_limit(random, draft);
    }
    match draft.kind {
        "order" | "knn" => {
            let n = random.of(&[100, 200, 513, 1_024, 1_025]);
            matrix(random, draft, n, 1);
            (draft.start, draft.stop, draft.split) = (random.below(n), n, n);
            neighbours::at_limit(random, draft);
        }
        "tree" => {
            let n = random.of(&[600, 4_096]);
            matrix(random, draft, n, 1);
            (draft.m, draft.value, draft.forbidden) = (random.of(&[1, 2]), f64::MAX, None);
            draft.layers = vec![random.of(&[0.01, 1.0 / 300.0]); random.of(&[1, 5, 64])];
        }
        "pick" => draft.n = draft.stop.saturating_sub(random.below(2)).max(1),
        "perm" => many(random, draft),
        _ => at_limit(random, draft),
    }
}

/// Permutations up to P's limit or past it, or curves past those that are lent.
fn many(random: &mut Random, draft: &mut Draft) {
    let few = random.of(&[3, 5, 7, 16]);
    let some = random.between(17, 262);
    let sizes =
        [(999, few), (999, some), (1_000, few), (5, 3_277), (2, few), (999, 262), (999, 263)];
    let (p, length) = sizes[random.weighted(&[8, 8, 8, 8, 8, 2, 1])];
    let count = if p == 2 { random.between(4, 6) } else { random.between(1, 3) };
    permuted(random, draft, p, length, count);
    match random.below(3) {
        0 if count > 3 => draft.curves[3][0] = values::not_finite(random),
        1 if count > 3 => draft.curves[3] = vec![0.0; random.of(&[1, 4_097, 4_098])],
        2 if count > 3 => draft.bases[3] = values::not_finite(random),
        _ => draft.value = random.between(1, p) as f64 / (p + 1) as f64,
    }
}
