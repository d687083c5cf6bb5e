//! Draw lists, and W beside the number of draws that are long enough.

use crate::draft::Draft;
use crate::kinds::FAR;
use crate::random::Random;

#[derive(Clone, Copy)]
pub enum Sort {
    /// As the Rust draws: half of them are passed over.
    Any,
    Long,
    /// Of 2*m rows, or some beside it.
    Short,
    /// To the last row.
    Last,
    /// Passed over.
    Crossed,
}

const SORTS: [Sort; 5] = [Sort::Any, Sort::Long, Sort::Short, Sort::Last, Sort::Crossed];

/// The greatest W.
pub const MOST: u64 = 4_096;

/// Mostly draws in place of the layers; where there are none W is ignored. Draws are shorter than the
/// run, so m is often less with them.
pub fn lists(random: &mut Random, draft: &mut Draft) {
    if random.one_in(4) {
        return draft.w = random.of(&[0, 0, 1, 7, MOST]);
    }
    draft.layers = vec![];
    if random.one_in(2) {
        draft.m = draft.m.div_ceil(3);
    }
    let (few, some, many) = (random.between(1, 5), random.between(6, 20), random.between(21, 80));
    let count = [few, some, many][random.weighted(&[10, 8, 1])];
    let all = sort(random);
    draw(random, draft, all, count);
    if random.one_in(2) {
        mix(random, draft);
    }
    if random.one_in(4) {
        repeat(random, draft);
    }
    if random.one_in(6) {
        behind_others(random, draft);
    }
    draft.w = most(random, draft);
}

fn sort(random: &mut Random) -> Sort {
    SORTS[random.weighted(&[6, 5, 4, 1, 1])]
}

/// So many draws of a sort.
pub fn draw(random: &mut Random, draft: &mut Draft, sort: Sort, count: u64) {
    draft.draws = (0..count).flat_map(|_| one(random, draft, sort)).collect();
}

fn one(random: &mut Random, draft: &Draft, sort: Sort) -> [u64; 2] {
    let n = draft.n;
    match sort {
        Sort::Any => [random.between(0, n), random.between(0, n)],
        Sort::Long => [random.between(0, n / 2), random.between(n / 2, n)],
        Sort::Short => {
            let length = (2 * draft.m + random.between(0, 3)).saturating_sub(1).min(n);
            let start = random.between(0, n - length);
            [start, start + length]
        }
        Sort::Last => [random.between(0, n), n],
        Sort::Crossed => {
            let (stop, far) = (random.between(0, n), random.of(&FAR));
            [random.of(&[stop, stop, n, n + 1, far]), stop]
        }
    }
}

/// Draws of other sorts in some places.
fn mix(random: &mut Random, draft: &mut Draft) {
    for place in (0..draft.draws.len()).step_by(2) {
        if random.one_in(3) {
            let sort = sort(random);
            let other = one(random, draft, sort);
            draft.draws[place..place + 2].copy_from_slice(&other);
        }
    }
}

/// Some draws again, in place of others.
fn repeat(random: &mut Random, draft: &mut Draft) {
    let pairs = draft.draws.len() as u64 / 2;
    for _ in 0..pairs {
        let [from, to] = [(); 2].map(|()| 2 * random.below(pairs) as usize);
        draft.draws.copy_within(from..from + 2, to);
    }
}

/// The draws behind some that are passed over.
fn behind_others(random: &mut Random, draft: &mut Draft) {
    let count = random.of(&[1, 3, 12, 100]);
    let others = (0..count).flat_map(|_| one(random, draft, Sort::Crossed));
    draft.draws = others.chain(draft.draws.iter().copied()).collect();
}

/// W: none, fewer than the draws that are long enough, as many, more.
pub fn most(random: &mut Random, draft: &Draft) -> u64 {
    let long = |draw: &&[u64]| draw[0] < draw[1] && draft.m < draft.refused_m(draw[1] - draw[0]);
    let answers = draft.draws.chunks_exact(2).filter(long).count() as u64;
    let fewer = random.between(0, answers.saturating_sub(1));
    let more = answers + random.between(1, 4);
    [0, fewer, answers, more, MOST][random.weighted(&[1, 4, 3, 4, 1])].min(MOST)
}
