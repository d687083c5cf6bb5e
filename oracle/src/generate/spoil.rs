//! Turns a case into one that a given refusal applies to, and a line into one that is no case.

use crate::draft::Draft;
use crate::kinds::{permutations, CLOSED, DRAWING, FAR};
use crate::random::Random;
use crate::{feed, rows, values};

/// The refusals that a kind can give.
pub fn numbers(kind: &str) -> &'static [u64] {
    match kind {
        "rel" => &[1, 2],
        "cand" => &[1, 2, 5, 7, 8, 9, 10],
        "gain" | "knn" => &[1, 4, 7, 8],
        "search" => &[1, 2, 4, 5, 7, 8, 9, 10],
        "stored" => &[1, 2, 4, 5, 6, 6, 7, 7, 8],
        "tree" => &[1, 2, 3, 4, 5, 6, 6, 7, 7],
        "wild" => &[1, 2, 3, 4, 5, 6, 6, 7, 7, 8],
        "why" => &[1, 2, 3, 4, 5, 6, 6, 7, 7, 8, 8],
        "feed" => &[1, 7],
        "lot" => &[1, 4, 7, 13],
        "close" => &[1, 13, 14],
        "fedtree" => &[1, 2, 3, 5, 6, 6, 7, 7, 8, 13, 14],
        "order" => &[1, 4, 7],
        "curve" => &[4, 7, 12],
        "pick" => &[1, 2, 5, 8, 9, 10, 12],
        "guesses" => &[1, 2, 5, 8, 9, 10],
        "perm" => &[2, 3, 4, 9, 11, 11, 12, 12],
        _ => &[],
    }
}

/// How many slices a kind lends.
pub fn slices(kind: &str) -> u64 {
    match kind {
        "cand" | "gain" | "search" | "curve" => 1,
        "order" | "stored" => 2,
        "knn" | "why" | "fedtree" => 3,
        "tree" | "wild" => 4,
        _ => 0,
    }
}

/// The first of the slices that a tree is grown in: records, nodes, cuts; but for `fedtree` sums stand
/// before them.
pub fn grown_slice(kind: &str) -> u64 {
    if kind == "fedtree" {
        1
    } else {
        2
    }
}

pub fn spoil(random: &mut Random, draft: &mut Draft, number: u64) {
    match number {
        1 if feed::KINDS.contains(&draft.kind) => feed::size(random, draft),
        1 => size(random, draft),
        2 if draft.kind == "rel" => {
            let above = f64::from_bits(0.5_f64.to_bits() + 1);
            let odd = values::not_finite(random);
            draft.value = random.of(&[0.0, -0.0, 0.5, above, 1.0, -0.1, -5e-324, odd]);
        }
        2 => draft.m = random.of(&[0, 4_097, 5_000, u64::MAX, 1 << 63, (1 << 63) + 1]),
        3 if draft.kind == "perm" => {
            let odd = values::not_finite(random);
            draft.value = random.of(&[0.0, -0.0, 1.0, 1.5, -0.1, odd]);
        }
        3 => {
            draft.value =
                f64::from_bits(random.of(&[0x7ff8 << 48, 0xfff8 << 48, 0x7ff0_dead_0000_0001]))
        }
        4 if draft.kind == "lot" => feed::bad_cell(random, draft),
        4 => infinite(random, draft),
        5 if drawn_alone(draft) && random.one_in(2) => odd_draws(random, draft),
        5 => list(random, draft),
        6 if DRAWING.contains(&draft.kind) && !random.one_in(3) => lists(random, draft),
        6 => layers(random, draft),
        7 if feed::KINDS.contains(&draft.kind) && feed::shorter(random, draft) => (),
        7 => {
            let slice = random.between(1, slices(draft.kind));
            draft.short = Some((slice, random.of(&[1, 1, 1, 2, 3, 1_000, u64::MAX])));
        }
        8 if draft.kind == rows::ASKING && random.one_in(2) => rows::outside(random, draft),
        8 if DRAWING.contains(&draft.kind) => draw_outside(random, draft),
        8 => segment(random, draft),
        9 => {
            let length = match draft.kind {
                "perm" => draft.curves.first().map_or(0, Vec::len) as u64,
                _ => draft.stop.saturating_sub(draft.start),
            };
            let least = draft.refused_m(length);
            draft.m = random.of(&[least, least, length, 4_096]).clamp(1, 4_096);
        }
        10 => bar_all(random, draft),
        11 => permutation(random, draft),
        13 => feed::too_many(random, draft),
        14 => feed::too_few(random, draft),
        _ => curves(random, draft),
    }
}

fn bar_all(random: &mut Random, draft: &mut Draft) {
    let last = random.of(&[draft.stop, draft.n, u64::MAX]);
    let first = random.of(&[0, draft.start]).min(last);
    let middle = random.between(first, last.min(first.saturating_add(50)));
    draft.forbidden = Some(vec![middle, last, first, middle]);
}

fn size(random: &mut Random, draft: &mut Draft) {
    let matrix = !draft.cells.is_empty();
    match random.below(if matrix { 6 } else { 2 }) {
        0 => draft.n = 0,
        1 => draft.n = random.of(&[4_097, 5_000, u64::MAX, u64::MAX - 1, 1 << 63, 1 << 32]),
        2 => draft.d = random.of(&[0, 65, u64::MAX, 1 << 63]),
        3 => drop(draft.cells.pop()),
        4 => draft.cells.push(1.0),
        _ => draft.n = draft.n.saturating_add(1),
    }
}

fn infinite(random: &mut Random, draft: &mut Draft) {
    let value = values::not_finite(random);
    if draft.kind == "perm" && random.one_in(3) {
        return draft.max = value;
    }
    if draft.kind == "perm" && random.one_in(2) && !draft.bases.is_empty() {
        let place = random.below(draft.bases.len() as u64) as usize;
        return draft.bases[place] = value;
    }
    let list = match draft.curves.len() as u64 {
        0 => &mut draft.cells,
        count => &mut draft.curves[random.below(count) as usize],
    };
    if !list.is_empty() {
        let place = random.below(list.len() as u64) as usize;
        list[place] = value;
    }
}

fn list(random: &mut Random, draft: &mut Draft) {
    let list = draft.forbidden.get_or_insert_default();
    match random.below(3) {
        0 => list.push(random.below(9)),
        1 if list.len() % 2 == 0 => {
            let b = random.below(20);
            list.extend([random.of(&[b + 1, b + 5, u64::MAX]), b]);
        }
        _ => *list = random.of(&[[3, 2, 0, 0], [0, 0, 1, 0], [u64::MAX, 0, 4, 4]]).into(),
    }
}

fn layers(random: &mut Random, draft: &mut Draft) {
    match random.below(6) {
        0 => draft.layers = vec![0.5; random.of(&[65, 66, 100])],
        1 => draft.layers = vec![values::bad_layer(random)],
        _ => {
            let place = random.below(draft.layers.len() as u64 + 1) as usize;
            draft.layers.insert(place, values::bad_layer(random));
        }
    }
}

/// Whether there are draws, or could be, without layers beside them.
fn drawn_alone(draft: &Draft) -> bool {
    DRAWING.contains(&draft.kind) && draft.layers.is_empty()
}

fn odd_draws(random: &mut Random, draft: &mut Draft) {
    if random.one_in(2) || draft.draws.pop().is_none() {
        draft.draws.push(random.below(9));
    }
}

/// W above its size, or draws beside layers.
fn lists(random: &mut Random, draft: &mut Draft) {
    if !random.one_in(3) {
        return draft.w = random.of(&[4_097, 4_097, 5_000, 1 << 63, u64::MAX]);
    }
    if draft.draws.is_empty() {
        draft.draws = random.of(&[[0, draft.n], [1, 0]]).into();
    }
    if draft.layers.is_empty() {
        draft.layers = vec![0.5];
    }
}

/// A draw that stops past the run: one of those that are there, or one behind them, where W records may
/// stand already; often one that is passed over.
fn draw_outside(random: &mut Random, draft: &mut Draft) {
    let far = random.of(&FAR);
    let stop = random.of(&[draft.n.saturating_add(1), draft.n.saturating_add(2), far]);
    let start = random.of(&[0, draft.n / 2, stop, u64::MAX]);
    let pairs = draft.draws.len() as u64 / 2;
    if pairs == 0 || random.one_in(2) {
        if pairs == 0 {
            draft.layers.clear();
        }
        return draft.draws.extend([start, stop]);
    }
    let place = 2 * random.below(pairs) as usize;
    draft.draws[place + 1] = stop;
    if random.one_in(3) {
        draft.draws[place] = start;
    }
}

fn segment(random: &mut Random, draft: &mut Draft) {
    let split = matches!(draft.kind, "gain" | "knn");
    match random.below(if split { 7 } else { 3 }) {
        0 => {
            (draft.start, draft.stop) = (draft.stop.max(1), draft.start.min(draft.stop.max(1) - 1))
        }
        1 => draft.stop = draft.n.saturating_add(random.of(&[1, 1, 2, 5])),
        2 => {
            let far = random.of(&FAR);
            draft.start = random.of(&[draft.start, far]);
            draft.stop = random.of(&FAR);
        }
        3 | 4 => draft.split = draft.stop.saturating_add(random.of(&[1, 2, u64::MAX])),
        5 => draft.split = draft.start.saturating_sub(1),
        _ => (draft.stop, draft.split) = (draft.start, draft.start),
    }
}

fn permutation(random: &mut Random, draft: &mut Draft) {
    let length = draft.curves.first().map_or(0, Vec::len) as u64;
    if draft.perms.is_empty() {
        draft.p = random.between(1, 3);
        permutations(random, draft, length);
    }
    let place = random.below(draft.perms.len().max(1) as u64) as usize;
    match random.below(6) {
        0 => drop(draft.perms.pop()),
        1 => draft.perms.push(0),
        2 => draft.p = random.of(&[draft.p + 1, 1_000, u64::MAX, 1 << 63]),
        3 => draft.p = draft.p.saturating_sub(1),
        4 if !draft.perms.is_empty() => {
            draft.perms[place] = (draft.perms[place] + 1) % length.max(1)
        }
        _ if !draft.perms.is_empty() => {
            draft.perms[place] = random.of(&[length, length + 1, u64::MAX])
        }
        _ => (),
    }
}

fn curves(random: &mut Random, draft: &mut Draft) {
    let which = random.below(draft.curves.len().max(1) as u64) as usize;
    match (draft.kind, random.below(4)) {
        ("perm", 0) => (draft.curves, draft.bases) = (vec![], vec![]),
        ("perm", 1) => {
            let one = draft.curves.first().cloned().unwrap_or_default();
            draft.curves.resize(random.of(&[4, 5]), one);
            draft.bases.resize(draft.curves.len(), 0.0);
        }
        ("pick", 0 | 1) => {
            let last = draft.stop.saturating_sub(draft.m);
            let past = last.saturating_add(u64::from(draft.closed));
            draft.split = random.of(&[draft.start, past, draft.stop, u64::MAX, 0]);
        }
        ("curve", 0) => draft.curves = vec![vec![], vec![]],
        (_, 2) => drop(draft.curves.get_mut(which).map(Vec::pop)),
        _ => drop(draft.curves.get_mut(which).map(|curve| curve.push(1.0))),
    }
}

/// A line that is no case, from a case's.
pub fn garble(random: &mut Random, kind: &str, line: &str) -> String {
    let (first, rest) = line.split_once(' ').unwrap_or((line, ""));
    let (before, last) = line.rsplit_once(' ').unwrap_or((line, ""));
    match random.below(19) {
        0 => String::new(),
        1 => format!("{first}  {rest}"),
        2 => format!("{line} "),
        3 => format!(" {line}"),
        4 => before.into(),
        5 => format!("{line} 0"),
        6 => format!("{before} 0{last}"),
        7 => format!("{before} {last}x"),
        8 => format!("{before}\t{last}"),
        9 => line.to_uppercase(),
        10 => format!("{before} 18446744073709551616"),
        11 => format!("{before} +{last}"),
        12 => format!("short 0 1 {line}"),
        13 => format!("short {} 0 {line}", slices(kind) + 1),
        14 => format!("short 1 {line}"),
        15 => format!("closed short 1 0 {line}"),
        16 => format!("{first} closed {rest}"),
        17 if CLOSED.contains(&kind) => format!("closed closed {line}"),
        17 => format!("closed {line}"),
        _ => format!("{line}\r"),
    }
}
