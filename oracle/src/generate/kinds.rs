//! A case of each kind, most of them small. Those at a limit are in limits.rs.

use crate::draft::Draft;
use crate::draws;
use crate::random::Random;
use crate::{feed, neighbours, rows, spoil, values};

pub const KINDS: [&str; 19] = [
    "rel", "f32", "cand", "gain", "search", "stored", "tree", "wild", "why", "feed", "lot",
    "close", "fedtree", "order", "knn", "curve", "pick", "guesses", "perm",
];

/// Those that take the prefix `closed`.
pub const CLOSED: [&str; 9] =
    ["cand", "search", "tree", "wild", "why", "fedtree", "pick", "guesses", "perm"];

/// Those that take draws.
pub const DRAWING: [&str; 4] = ["stored", "wild", "why", "fedtree"];

/// Those that have a matrix, or are made of one.
const MEASURED: [&str; 11] =
    ["gain", "search", "stored", "tree", "wild", "why", "feed", "lot", "fedtree", "order", "knn"];

pub const FAR: [u64; 4] = [u64::MAX, u64::MAX - 1, 1 << 63, 1 << 40];

fn rows(random: &mut Random) -> u64 {
    match random.weighted(&[400, 400, 60, 3]) {
        0 => random.between(1, 12),
        1 => random.between(13, 30),
        2 => random.between(31, 80),
        _ => random.between(81, 400),
    }
}

fn columns(random: &mut Random, n: u64) -> u64 {
    let most = match random.weighted(&[50, 40, 8, 1]) {
        0 => 1,
        1 => random.between(2, 3),
        2 => random.between(4, 8),
        _ => random.between(9, 64),
    };
    if n * most > 2_000 {
        1
    } else {
        most
    }
}

pub fn matrix(random: &mut Random, draft: &mut Draft, n: u64, d: u64) {
    (draft.n, draft.d) = (n, d);
    draft.cells = values::cells(random, n, d);
}

fn ends(random: &mut Random, draft: &mut Draft) {
    (draft.start, draft.stop) = (0, draft.n);
    if random.one_in(2) {
        let most = random.of(&[draft.n - 1, draft.n / 2, draft.n / 3]);
        draft.start = random.between(0, most);
        let least = random.of(&[draft.start, (draft.start + draft.n) / 2]);
        draft.stop = random.between(least, draft.n);
    }
}

/// A segment of the draft's rows, and a split of it.
pub fn at_split(random: &mut Random, draft: &mut Draft) {
    ends(random, draft);
    draft.split = random.between(draft.start, draft.stop);
}

/// A segment of the draft's rows, an m that mostly leaves candidates, a forbidden list.
fn segment(random: &mut Random, draft: &mut Draft) {
    ends(random, draft);
    let length = draft.stop - draft.start;
    let most = length / 2;
    draft.m = match random.weighted(&[5, 4, 1, 2]) {
        0 => 1,
        1 => random.between(1, (most / 2).max(1)),
        2 => random.between(1, most + 1),
        _ => half(random, length),
    };
    draft.forbidden = forbidden(random, draft.n);
}

/// m where 2*m is the number of rows, or one beside it.
fn half(random: &mut Random, rows: u64) -> u64 {
    random.of(&[rows / 2, rows.div_ceil(2)]).max(1)
}

fn pair(random: &mut Random, n: u64) -> [u64; 2] {
    let a = random.below(n + 1);
    [a, random.between(a, n)]
}

/// Forbidden lists of every kind that isn't refused.
fn forbidden(random: &mut Random, n: u64) -> Option<Vec<u64>> {
    let few = random.between(1, 4);
    Some(match random.weighted(&[30, 14, 20, 8, 5, 5, 5, 3, 5, 5, 1]) {
        0 => return None,
        1 => vec![],
        2 => {
            let mut short = |_| {
                let a = random.below(n + 1);
                [a, a + random.below(4)]
            };
            (0..few).flat_map(&mut short).collect()
        }
        3 => (0..few).flat_map(|_| pair(random, n)).collect(),
        4 => (0..few).flat_map(|_| [random.below(n + 1); 2]).collect(),
        5 => (0..random.between(5, 20)).flat_map(|_| pair(random, n)).collect(),
        6 => vec![random.below(n + 1), n + random.between(1, 9), n + 1, u64::MAX],
        7 => random.of(&[vec![0, n], vec![0, u64::MAX]].each_ref()).clone(),
        8 => {
            let kept = random.between(1, n);
            vec![0, kept - 1, kept, n]
        }
        9 => vec![random.of(&FAR) - 1, u64::MAX, u64::MAX, u64::MAX],
        _ => (0..n.min(128)).rev().flat_map(|a| [a, a + a % 2]).collect(),
    })
}

fn threshold(random: &mut Random) -> f64 {
    match random.weighted(&[4, 4, 2, 2]) {
        0 => random.of(&[-1.0, 0.0, -0.0, 0.5, 1.0, 10.0]),
        1 => (random.below(200) as f64) / 16.0,
        2 => random.of(&[f64::INFINITY, f64::NEG_INFINITY, f64::MAX, 1e300, 5e-324]),
        _ => {
            let sort = values::sort(random);
            values::value(random, sort)
        }
    }
}

fn curve(random: &mut Random, draft: &mut Draft) {
    let length = random.between(1, 30);
    draft.curves = vec![values::values(random, length), values::values(random, length)];
}

/// The pick's curve may hold infinities and NaN. Often its greatest value stands at stop-m, which is a
/// candidate with a closed end alone, and the guess is the last candidate.
pub fn pick(random: &mut Random, draft: &mut Draft) {
    let length = draft.stop - draft.start;
    let mut curve = values::values(random, length);
    let often = random.of(&[0, 0, 1, 4]);
    for value in &mut curve {
        if often > 0 && random.one_in(often) {
            *value = values::not_finite(random);
        }
    }
    if random.one_in(20) {
        curve.fill(random.of(&[f64::NAN, f64::NEG_INFINITY, f64::INFINITY]));
    }
    if random.one_in(4) && draft.m <= length {
        curve[(length - draft.m) as usize] = random.of(&[f64::MAX, f64::INFINITY]);
    }
    draft.curves = vec![curve];
    let first = draft.start.saturating_add(draft.m);
    let count = (length + u64::from(draft.closed)).saturating_sub(2 * draft.m).max(1);
    draft.split = first + if random.one_in(3) { count - 1 } else { random.below(count) };
}

fn perm(random: &mut Random, draft: &mut Draft) {
    let length = random.of(&[1, 2, 3, 3, 4, 4, 5, 5, 6, 7, 8, 9, 12, 20]);
    let count = random.between(1, 3);
    draft.m = random.between(1, draft.most_m(length));
    if random.one_in(4) {
        draft.m = half(random, length);
    }
    draft.p = random.between(0, 6);
    draft.curves = (0..count).map(|_| values::values(random, length)).collect();
    draft.bases = values::values(random, count);
    permutations(random, draft, length);
    draft.max = maximum(random, draft);
    let share = random.between(1, draft.p + 1) as f64 / (draft.p + 1) as f64;
    draft.value = random.of(&[0.02, 0.05, 0.5, 0.75, 1.0 - 1e-16, 5e-324, share, share]);
    if draft.value >= 1.0 {
        draft.value = 0.999;
    }
}

pub fn permutations(random: &mut Random, draft: &mut Draft, length: u64) {
    draft.perms = vec![];
    for _ in 0..draft.p {
        let mut one: Vec<u64> = (0..length).collect();
        random.shuffle(&mut one);
        draft.perms.extend(one);
    }
}

/// Often a sum that some permutation reaches, so that the first sum that isn't below it counts.
pub fn maximum(random: &mut Random, draft: &Draft) -> f64 {
    let which = random.below(draft.curves.len() as u64) as usize;
    let curve = &draft.curves[which];
    let mut sum = draft.bases[which];
    let places = draft.perms.iter().take(random.between(0, curve.len() as u64) as usize);
    for place in places {
        sum += curve[*place as usize];
    }
    if sum.is_finite() && !random.one_in(5) {
        sum
    } else {
        let sort = values::sort(random);
        values::value(random, sort)
    }
}

fn relative(random: &mut Random, n: u64) -> f64 {
    let sort = values::sort(random);
    let any = values::value(random, sort).abs();
    let below = f64::from_bits(0.5_f64.to_bits() - 1);
    let hundredths = random.between(1, 49) as f64 / 100.0;
    let fraction = 1.0 / random.between(3, 5_000) as f64;
    let whole = random.between(1, n) as f64 / (2 * n) as f64;
    let near = values::beside(random, whole);
    random.of(&[hundredths, hundredths, fraction, whole, near, near, below, 5e-324, any / 4.0])
}

fn narrow(random: &mut Random) -> f64 {
    let single = f32::from_bits(random.bits() as u32);
    let wide = f64::from(if single.is_nan() { f32::MAX } else { single });
    let half = f64::from_bits(wide.to_bits() + (1 << 28));
    let edges = [f64::MAX, f64::INFINITY, f64::NAN, -0.0, f64::from_bits(0x47ef_ffff_f000_0000)];
    match random.weighted(&[3, 3, 3, 2, 1, 2]) {
        0 => wide,
        1 => half,
        2 => f64::from_bits(half.to_bits().wrapping_add(random.between(0, 2)).wrapping_sub(1)),
        3 => f64::from_bits(random.bits()),
        4 => random.of(&edges),
        _ => {
            let small = (random.bits() >> 12) | (random.between(0x360, 0x382) << 52);
            f64::from_bits(small | (random.below(2) << 63))
        }
    }
}

/// The last m rows up to `stop` are set apart, so that the best cut is stop-m, where it is allowed.
fn apart(draft: &mut Draft, stop: u64) {
    let from = stop.saturating_sub(draft.m) * draft.d;
    draft.cells[from as usize..(stop * draft.d) as usize].fill(1e4);
}

/// A run of zeros but for some stretches: many of its segments are cut by more than the run is, and many by
/// the same gain.
fn raised(random: &mut Random, draft: &mut Draft) {
    let (n, d) = (draft.n, draft.d);
    draft.cells.fill(0.0);
    for _ in 0..random.between(1, 3) {
        let from = random.below(n);
        let to = n.min(from + random.between(1, n / 4 + 1));
        draft.cells[(from * d) as usize..(to * d) as usize].fill(8.0);
    }
    (draft.m, draft.forbidden) = (random.between(1, 3), None);
    draft.value = random.of(&[0.0, 1.0, 10.0, 40.0]);
}

/// A run of great values that no gain cuts: there are infinite ones, and some that are no number.
fn great(random: &mut Random, draft: &mut Draft) {
    for cell in &mut draft.cells {
        *cell = values::value(random, values::Sort::Huge);
    }
    draft.value = f64::INFINITY;
}

/// A run that is cut wherever it can be, mostly of parts of m rows; its room is often lent exactly.
fn cut_everywhere(random: &mut Random, draft: &mut Draft) {
    draft.m = random.between(1, 5);
    let n = draft.m * random.between(1, 6) + random.of(&[0, 0, 0, 1, draft.m - 1]);
    matrix(random, draft, n, 1);
    if random.one_in(2) {
        draft.cells.fill(0.0);
    }
    (draft.value, draft.forbidden) = (-1.0, None);
    if random.one_in(2) {
        let (first, last) = (spoil::grown_slice(draft.kind), spoil::slices(draft.kind));
        draft.short = Some((random.between(first, last), random.of(&[0, 0, 1])));
    }
}

/// A case of a kind; one that takes the prefix `closed` has it one time in `closed_in`.
pub fn draft(random: &mut Random, kind: &'static str, closed_in: u64) -> Draft {
    let n = rows(random);
    let closed = CLOSED.contains(&kind) && random.one_in(closed_in);
    let mut draft = Draft { kind, n, closed, ..Draft::default() };
    if MEASURED.contains(&kind) {
        let n = if neighbours::KINDS.contains(&kind) { n.min(100) } else { n };
        let d = columns(random, n);
        matrix(random, &mut draft, n, d);
    }
    match kind {
        "rel" => {
            let any = random.between(1, 4_096);
            draft.n = random.of(&[n, any, 4_096, 100]);
            draft.value = relative(random, draft.n);
        }
        "f32" => draft.value = narrow(random),
        "cand" => segment(random, &mut draft),
        "guesses" => {
            segment(random, &mut draft);
            if random.one_in(6) {
                draft.n = n.max(2);
                draft.start = random.below(draft.n - 1);
                (draft.stop, draft.m) = (draft.start + 2, 1);
            }
        }
        "search" => {
            segment(random, &mut draft);
            if random.one_in(6) {
                let stop = draft.stop;
                apart(&mut draft, stop);
            }
        }
        "gain" | "knn" => at_split(random, &mut draft),
        "stored" => {
            segment(random, &mut draft);
            draft.layers = values::layers(random);
        }
        "tree" | "wild" | "why" | "fedtree" => {
            segment(random, &mut draft);
            draft.value = threshold(random);
            draft.layers = values::layers(random);
            match random.below(12) {
                0 | 1 => cut_everywhere(random, &mut draft),
                2 => apart(&mut draft, n),
                3..=5 => raised(random, &mut draft),
                _ => (),
            }
        }
        "close" => feed::state(random, &mut draft),
        "order" | "feed" | "lot" => (),
        "curve" => curve(random, &mut draft),
        "pick" => {
            segment(random, &mut draft);
            pick(random, &mut draft);
        }
        "perm" => perm(random, &mut draft),
        _ => unreachable!(),
    }
    if DRAWING.contains(&kind) {
        draws::lists(random, &mut draft);
    }
    if kind == rows::ASKING {
        if random.one_in(16) {
            great(random, &mut draft);
        }
        rows::ask(random, &mut draft);
    }
    if neighbours::KINDS.contains(&kind) {
        neighbours::plain(random, &mut draft);
    }
    feed::hand_over(random, &mut draft);
    draft
}
