//! Runs that are fed: cells in lots, the room that they find, states and sums that no run has.

use crate::draft::{Draft, Lot};
use crate::kinds::{matrix, FAR};
use crate::random::Random;
use crate::values;

pub const KINDS: [&str; 4] = ["feed", "lot", "close", "fedtree"];

/// The most lots of a run.
const LOTS: usize = 1_024;

/// Runs of more cells are not cut up in every way.
const CUT_UP: u64 = 7;

/// No lot that is too long is longer, and no lot by itself.
const LONG: usize = 60;
const LONGEST: u64 = 5_000;

fn cells_in(draft: &Draft) -> u64 {
    u64::try_from(u128::from(draft.n) * u128::from(draft.d)).unwrap_or(u64::MAX)
}

/// The sums of the draft's cells, row after row behind a row of zeros.
pub fn sums_of(draft: &Draft) -> Vec<f64> {
    let d = draft.d as usize;
    let mut sums = vec![0.0; d];
    for (place, cell) in draft.cells.iter().enumerate() {
        sums.push((0.0 + cell) + sums[place]);
    }
    sums
}

/// What the draft's cells are handed over as.
pub fn hand_over(random: &mut Random, draft: &mut Draft) {
    match draft.kind {
        "feed" => {
            draft.sums = found(random, draft);
            let lots = cut(random, draft);
            draft.lots = interrupted(random, draft, lots);
            if draft.cells.len() > LOTS && random.one_in(2) {
                fill(random, &mut draft.lots);
            }
        }
        "lot" => lot(random, draft),
        "fedtree" => {
            draft.count = cells_in(draft);
            draft.sums = summed(random, draft);
        }
        _ => (),
    }
}

/// A room as it is found, mostly exactly as long as is asked.
fn found(random: &mut Random, draft: &Draft) -> Vec<f64> {
    let longer = random.of(&[0, 0, 0, 1, 3, draft.d]);
    let seldom = is_full(draft) && !random.one_in(8);
    any_values(random, (draft.n + 1) * draft.d + if seldom { 0 } else { longer })
}

/// Whether there are nearly as many cells as the capacity is, so that no more can be handed over.
fn is_full(draft: &Draft) -> bool {
    draft.cells.len() > 200_000
}

/// Values of one sort, all alike, or with some that are not finite.
fn any_values(random: &mut Random, count: u64) -> Vec<f64> {
    let alike = random.of(&[0.0, -0.0, 7.5, f64::NAN, f64::INFINITY, f64::MAX]);
    let mut values = match random.below(3) {
        0 => vec![alike; count as usize],
        _ => values::values(random, count),
    };
    let often = random.of(&[0, 0, 2, 9]);
    for value in &mut values {
        if often > 0 && random.one_in(often) {
            *value = values::not_finite(random);
        }
    }
    values
}

/// The cells in lots of one length or of any, now and then with empty ones among them.
fn cut(random: &mut Random, draft: &Draft) -> Vec<Vec<f64>> {
    let (d, count) = (draft.d as usize, draft.cells.len());
    let row = random.of(&[d, d, d + 1, d + 1, d.saturating_sub(1), 2 * d + 1]).max(1);
    let length = [1, row, count.div_ceil(2), count, 0][random.weighted(&[2, 6, 1, 1, 6])];
    let mut lots = vec![];
    let mut rest = &draft.cells[..];
    while !rest.is_empty() {
        let any = random.of(&[0, 1, d.saturating_sub(1), d, d + 1, 2 * d, count / 3]);
        let length = if length == 0 { any } else { length }.max(count / 512).min(rest.len());
        let (lot, others) = rest.split_at(length);
        lots.push(lot.into());
        rest = others;
    }
    lots
}

/// The lots with others between them that are refused, with empty ones and closings; or some too few.
fn interrupted(random: &mut Random, draft: &Draft, mut lots: Vec<Vec<f64>>) -> Vec<Lot> {
    if random.one_in(5) {
        lots.truncate(random.below(lots.len() as u64 + 1) as usize);
    }
    let often = random.of(&[0, 0, 2, 5]);
    let mut spare = LOTS.saturating_sub(lots.len());
    let mut taken = 0;
    let mut all = vec![];
    for lot in lots.into_iter().map(Some).chain([None]) {
        while often > 0 && spare > 0 && random.one_in(often) {
            all.push(between(random, draft, taken));
            spare -= 1;
        }
        taken += lot.as_ref().map_or(0, Vec::len);
        all.extend(lot.map(Lot::Cells));
    }
    all
}

/// What stands between two lots, so many cells being taken.
fn between(random: &mut Random, draft: &Draft, taken: usize) -> Lot {
    let left = draft.cells.len() - taken;
    match random.weighted(&[2, 2, 5, 3, 1]) {
        0 => Lot::Cells(vec![]),
        _ if is_full(draft) => Lot::Close,
        2 => Lot::Cells(with_bad(random, draft, left)),
        3 if left < LONG => Lot::Cells(too_long(random, left)),
        4 if left < LONG => {
            let mut both = too_long(random, left);
            spoil_one(random, &mut both);
            Lot::Cells(both)
        }
        _ => Lot::Close,
    }
}

/// Empty lots and closings among the others, up to the most, or one past it.
fn fill(random: &mut Random, lots: &mut Vec<Lot>) {
    let most = random.of(&[LOTS, LOTS, LOTS + 1]);
    while lots.len() < most {
        let place = random.below(lots.len() as u64 + 1) as usize;
        lots.insert(place, if random.one_in(2) { Lot::Close } else { Lot::Cells(vec![]) });
    }
}

fn too_long(random: &mut Random, left: usize) -> Vec<f64> {
    let more = random.of(&[1, 1, 2, 5]);
    values::values(random, left as u64 + more)
}

/// A lot that would be taken but for a bad cell: the first, the last or another.
fn with_bad(random: &mut Random, draft: &Draft, left: usize) -> Vec<f64> {
    let d = draft.d as usize;
    let length = random.of(&[1, d.saturating_sub(1), d, d + 1, 3]).min(left).max(1);
    let mut lot = values::values(random, length as u64);
    spoil_one(random, &mut lot);
    lot
}

fn spoil_one(random: &mut Random, lot: &mut [f64]) {
    let (last, any) = (lot.len() - 1, random.below(lot.len() as u64) as usize);
    lot[random.of(&[0, last, any, any])] = values::not_finite(random);
}

/// A lot for a state of the run or for any, over its sums or over others.
fn lot(random: &mut Random, draft: &mut Draft) {
    let (d, all) = (draft.d, cells_in(draft));
    let (any, row) = (random.below(all + 1), random.below(draft.n) * d);
    draft.count = random.of(&[0, any, any, row, row + d - 1, all - 1, all]);
    let left = all - draft.count;
    let some = random.between(0, left);
    let length = random.of(&[0, 1, d - 1, d, d + 1, some, left]).min(left).min(LONGEST);
    draft.sums = found(random, draft);
    if random.one_in(2) {
        let (sums, told) = (sums_of(draft), (d + draft.count) as usize);
        draft.sums[..told].copy_from_slice(&sums[..told]);
    }
    draft.lots = vec![Lot::Cells(values::values(random, length))];
}

/// The sums of the cells, more behind them or some of them changed; or any sums.
fn summed(random: &mut Random, draft: &Draft) -> Vec<f64> {
    let mut sums = sums_of(draft);
    let length = sums.len() as u64;
    match random.weighted(&[12, 3, 2, 3]) {
        0 => (),
        1 => {
            let more = random.of(&[1, 3, draft.d]);
            sums.extend(any_values(random, more));
        }
        2 => {
            for _ in 0..random.between(1, 3) {
                let place = random.below(length) as usize;
                let odd = values::not_finite(random);
                sums[place] = random.of(&[odd, odd, f64::MAX, -1e200, 1.0, -0.0]);
            }
        }
        _ => sums = any_values(random, length),
    }
    sums
}

/// A state by itself, whole: there are no cells, so all sizes are alike.
pub fn state(random: &mut Random, draft: &mut Draft) {
    let (n, d) = (random.between(1, 4_096), random.between(1, 64));
    (draft.n, draft.d) = (random.of(&[draft.n, n, n, 4_096]), random.of(&[1, 2, d, d, 64]));
    draft.count = cells_in(draft);
}

/// A size outside its range, often so far that n*d passes 64 bits; or one that all else is made to fit.
pub fn size(random: &mut Random, draft: &mut Draft) {
    if random.one_in(2) {
        return fitting(random, draft);
    }
    let (n, d) = (random.of(&FAR), random.of(&FAR));
    match random.below(3) {
        0 => draft.n = random.of(&[0, 4_097, 5_000, 1 << 32, n]),
        1 => draft.d = random.of(&[0, 65, 66, 1 << 32, d]),
        _ => (draft.n, draft.d) = (n, d),
    }
}

/// No rows, no columns or some columns too many, and no other refusal for it.
fn fitting(random: &mut Random, draft: &mut Draft) {
    let few = random.between(1, 3);
    (draft.n, draft.d) = random.of(&[(0, draft.d.min(64)), (draft.n.min(4_096), 0), (few, 65)]);
    let all = cells_in(draft);
    draft.sums.resize((all + draft.d) as usize, 0.5);
    draft.draws.clear();
    match (draft.kind, draft.lots.first_mut()) {
        ("lot", Some(Lot::Cells(lot))) => {
            lot.truncate(all as usize);
            draft.count = draft.count.min(all - lot.len() as u64);
        }
        _ => draft.count = all,
    }
}

/// Sums shorter than is asked, of `fedtree` now and then: it has other slices.
pub fn shorter(random: &mut Random, draft: &mut Draft) -> bool {
    if draft.kind == "fedtree" && !random.one_in(3) {
        return false;
    }
    let asked = (u128::from(draft.n) + 1) * u128::from(draft.d);
    let most = asked.saturating_sub(1).min(draft.sums.len() as u128) as usize;
    let row = draft.d.min(65) as usize;
    draft.sums.truncate(random.of(&[most, most, most.saturating_sub(row), most / 2, 0]));
    true
}

/// A bad cell in the lot, which has one at least.
pub fn bad_cell(random: &mut Random, draft: &mut Draft) {
    let Some(Lot::Cells(lot)) = draft.lots.first_mut() else { return };
    if lot.is_empty() {
        draft.count = draft.count.saturating_sub(1);
        lot.push(0.0);
    }
    spoil_one(random, lot);
}

/// More cells than n*d: one more or some, up to what 64 bits hold, and past it with those of the lot.
pub fn too_many(random: &mut Random, draft: &mut Draft) {
    let (all, far) = (cells_in(draft), random.of(&FAR));
    let lot = match draft.lots.first() {
        Some(Lot::Cells(lot)) => lot.len() as u64,
        _ => 0,
    };
    let one = all.saturating_add(1).saturating_sub(lot);
    draft.count = random.of(&[one, one, all.saturating_add(1), far, u64::MAX]).max(one);
}

/// Fewer than n*d.
pub fn too_few(random: &mut Random, draft: &mut Draft) {
    let all = cells_in(draft).max(1);
    let any = random.below(all);
    draft.count = random.of(&[all - 1, all - 1, any, all.saturating_sub(draft.d), 0]).min(all - 1);
}

/// Whether a run of few cells is cut up in every way.
pub fn is_cut_up(random: &mut Random, draft: &Draft) -> bool {
    draft.kind == "feed" && random.one_in(100)
}

/// A line for every way to cut the cells of a run up into lots that aren't empty, with nothing between them
/// or always the same.
pub fn cuttings(random: &mut Random, draft: &mut Draft) -> Vec<String> {
    let d = random.between(1, CUT_UP);
    let n = random.between(1, CUT_UP / d);
    matrix(random, draft, n, d);
    draft.sums = found(random, draft);
    let bad = Lot::Cells(vec![values::not_finite(random)]);
    let long = Lot::Cells(vec![1.0; CUT_UP as usize + 1]);
    let between = [None, Some(Lot::Cells(vec![])), Some(Lot::Close), Some(bad), Some(long)];
    let between = &between[random.weighted(&[4, 1, 1, 1, 1])];
    let cuttings = 0..1_u64 << (draft.cells.len() - 1);
    let line = |cuts: u64| {
        draft.lots = vec![];
        let mut lot = vec![];
        for (number, cell) in draft.cells.iter().enumerate() {
            lot.push(*cell);
            if cuts >> number & 1 == 1 || number + 1 == draft.cells.len() {
                draft.lots.extend(between.clone());
                draft.lots.push(Lot::Cells(std::mem::take(&mut lot)));
            }
        }
        draft.line()
    };
    cuttings.map(line).collect()
}
