//! Matrices of `order` and `knn`: many have rows at distance 0 from others, some have many rows. These
//! are drawn aside, so that a seed's cases of other kinds don't depend on them.

use crate::draft::Draft;
use crate::kinds::{at_split, matrix};
use crate::random::Random;

pub const KINDS: [&str; 2] = ["order", "knn"];

/// One case in so many has more rows than the others.
const LARGE: u64 = 150;

/// More rows for a case that is at no limit, now and then; rows at distance 0 for most. A row stays alone:
/// where a refusal takes a cell away, the numbers drawn after that depend on whether one is left.
pub fn plain(random: &Random, draft: &mut Draft) {
    let random = &mut random.aside();
    if draft.n > 1 && random.one_in(LARGE) {
        let some = random.between(101, 1_022);
        let n = random.of(&[some, some, some, 1_023, 1_024]);
        let d = random.of(&[1, 1, 1, 2, 2, 3, 3, 8]);
        matrix(random, draft, n, d);
        at_split(random, draft);
    }
    alike(random, draft);
}

/// Rows at distance 0 for most of the cases at a limit.
pub fn at_limit(random: &Random, draft: &mut Draft) {
    alike(&mut random.aside(), draft);
}

/// How rows come to distance 0.
#[derive(Clone, Copy)]
enum Way {
    /// All their cells are the same.
    Same,
    /// In one column some are 0 and some -0.
    Signs,
    /// In one column they are so small that the square of a difference is 0, or hardly not.
    Small,
}

const SMALL: [f64; 6] = [0.0, 5e-324, f64::MIN_POSITIVE, 1e-200, 1e-162, 2e-162];

fn alike(random: &mut Random, draft: &mut Draft) {
    let sets = sets(random, draft);
    let way = [Way::Same, Way::Signs, Way::Small][random.weighted(&[14, 3, 3])];
    for set in sets {
        bring(random, draft, &set, way);
    }
}

/// Brings the rows of a set to distance 0 from its first.
fn bring(random: &mut Random, draft: &mut Draft, set: &[u64], way: Way) {
    let d = draft.d as usize;
    let places: Vec<usize> = set.iter().map(|row| *row as usize * d).collect();
    for to in &places[1..] {
        draft.cells.copy_within(places[0]..places[0] + d, *to);
    }
    let column = random.below(draft.d) as usize;
    for place in places {
        let cell = &mut draft.cells[place + column];
        match way {
            Way::Same => (),
            Way::Signs => *cell = random.of(&[0.0, -0.0]),
            Way::Small => *cell = random.of(&SMALL) * random.of(&[1.0, -1.0]),
        }
    }
}

/// Sets of rows that are to be alike, none for some cases: few rows or many, a stretch, all, a row of the
/// segment and one before it or behind it, rows of either side of the split.
fn sets(random: &mut Random, draft: &Draft) -> Vec<Vec<u64>> {
    let n = draft.n;
    let (start, stop, split) = match draft.kind {
        "knn" => (draft.start, draft.stop, draft.split),
        _ => (0, n, n / 2),
    };
    let few = random.between(1, 3);
    let [from, to] = match random.weighted(&[40, 15, 12, 8, 4, 12, 5, 24]) {
        0 => return vec![],
        1 => [(0, n); 2],
        2 => return kept_apart(random, n, few),
        3 => {
            let from = random.below(n);
            return vec![(from..=random.between(from, n - 1)).collect()];
        }
        4 => return vec![(0..n).collect()],
        5 => [(0, start), (start, stop)],
        6 => [(start, stop), (stop, n)],
        _ => [(start, split), (split, stop)],
    };
    let sides = [from, to].map(|(first, end)| if first < end { (first, end) } else { (0, n) });
    let pair = |_| sides.map(|(first, end)| random.between(first, end - 1)).into();
    (0..few).map(pair).collect()
}

/// Every row in one of so many sets.
fn kept_apart(random: &mut Random, n: u64, count: u64) -> Vec<Vec<u64>> {
    let mut sets = vec![vec![]; count as usize];
    for row in 0..n {
        sets[random.below(count) as usize].push(row);
    }
    sets.retain(|set| !set.is_empty());
    sets
}
