//! The probes of docs/DIFFERENCES.md: what the Rust does with small inputs that documents 01 and 02
//! refuse or read otherwise. No rule is asked here. One line for each, `panics` where it does.

mod before;
#[allow(dead_code)]
#[path = "oracle/original.rs"]
mod original;

use changeforest::optimizer::OptimizerResult;
use changeforest::{Control, ModelSelectionResult, Optimizer, Segmentation, SegmentationType};
use protocol::{Lists, Matrix, Perm, Segment, Shortest, Stored, Tree};
use std::cell::RefCell;
use std::fmt::Debug;
use std::panic::{catch_unwind, AssertUnwindSafe};

const INF: f64 = f64::INFINITY;
const NAN: f64 = f64::NAN;

fn probe<T: Debug>(name: &str, answer: impl FnOnce() -> T) {
    match catch_unwind(AssertUnwindSafe(answer)) {
        Ok(answer) => println!("{name}: {answer:?}"),
        Err(_) => println!("{name}: panics"),
    }
}

fn column(cells: &[f64]) -> Matrix {
    Matrix { n: cells.len(), d: 1, cells: cells.into() }
}

/// The Rust has no closed end.
fn whole(m: usize) -> Shortest {
    Shortest { m, closed: false }
}

fn segment(n: usize, m: usize, start: usize, stop: usize) -> Segment {
    Segment { n, shortest: whole(m), forbidden: None, start, stop }
}

fn sizes_and_lengths() {
    probe("relative length NaN, n 4, candidates of [0,4)", || original::relative(NAN, 4, 0, 4));
    probe("relative length 0", || original::relative(0.0, 4, 0, 4));
    probe("relative length -0", || original::relative(-0.0, 4, 0, 4));
    probe("relative length 0.5", || original::relative(0.5, 4, 0, 4));
    probe("relative length 5e-324, n 1, m", || original::rel(5e-324, 1));
    probe("relative length just below 0.5, n 4096, m", || {
        original::rel(0.499_999_999_999_999_94, 4_096)
    });
    probe("relative length 0.1, n 0, m", || original::rel(0.1, 0));
    probe("relative length 0.1, n 4097, m", || original::rel(0.1, 4_097));
    for (n, m) in [(4, 0), (4_096, 4_097)] {
        probe(&format!("candidates of the run, n {n}, m {m}"), || {
            original::cand(&segment(n, m, 0, n))
        });
    }
    probe("candidates of [0,3), n 4097, m 1", || original::cand(&segment(4_097, 1, 0, 3)));
    probe("no rows, nodes", || nodes(&[], 0, -1.0));
    let none = Matrix { n: 3, d: 0, cells: vec![] };
    probe("no columns, gain of [0,3) at 1", || original::gain(&none, 0, 3, 1).0);
    probe("no columns, ordering", || original::order(&none).0);
    probe("n 4097, zero readings, gain of the run at 1", || {
        original::gain(&column(&[0.0; 4_097]), 0, 4_097, 1).0
    });
    probe("65 columns, zero readings, gain of [0,3) at 1", || {
        original::gain(&Matrix { n: 3, d: 65, cells: vec![0.0; 195] }, 0, 3, 1).0
    });
    probe("1025 rows, zero readings, entries of the ordering", || {
        original::order(&column(&[0.0; 1_025])).0.len()
    });
}

/// What is stored of a run, m being 1 and nothing forbidden.
fn storing(matrix: Matrix, lists: Lists) -> Stored {
    Stored { matrix, shortest: whole(1), forbidden: None, lists }
}

fn nodes(cells: &[f64], d: usize, threshold: f64) -> usize {
    let stored = storing(Matrix { d, ..column(cells) }, Lists::default());
    original::tree(&Tree { stored, threshold }).nodes.len()
}

fn thresholds() {
    probe("threshold NaN, rows 0 0 8, nodes", || nodes(&[0.0, 0.0, 8.0], 1, NAN));
    probe("threshold 1, rows 0 0 8, nodes", || nodes(&[0.0, 0.0, 8.0], 1, 1.0));
    for alpha in [NAN, 0.0, 1.0, -0.5, 2.0] {
        let case = Perm { alpha, ..permuted(3, 1, &[vec![0.0; 3]], 1.0) };
        probe(&format!("alpha {alpha}, p and significance"), || {
            let (_, p, significant) = original::perm(&case);
            (p, significant)
        });
    }
}

fn cells_and_pairs() {
    for last in [INF, -INF, NAN] {
        let matrix = column(&[0.0, 0.0, last]);
        probe(&format!("rows 0 0 {last}, m 1, split and gain"), || found(&matrix));
    }
    probe("rows inf 0 0, m 1, split and gain", || found(&column(&[INF, 0.0, 0.0])));
    probe("rows NaN 0, ordering", || original::order(&column(&[NAN, 0.0])).0);
    probe("rows inf inf, ordering", || original::order(&column(&[INF, INF])).0);
    probe("rows inf 0, ordering", || original::order(&column(&[INF, 0.0])).0);
    let crossed = Segment { forbidden: Some(vec![2, 1]), ..segment(4, 1, 0, 4) };
    probe("forbidden pair (2,1)", || original::cand(&crossed));
}

fn found(matrix: &Matrix) -> (usize, f64) {
    let found = original::search(matrix, &segment(3, 1, 0, 3));
    (found.split, found.gain)
}

fn ends_and_splits() {
    probe("candidates of [3,1), m 1", || original::cand(&segment(4, 1, 3, 1)));
    probe("candidates of [0,6), n 4, m 1", || original::cand(&segment(4, 1, 0, 6)));
    probe("candidates of [0,4), m 1", || original::cand(&segment(4, 1, 0, 4)));
    probe("candidates of [0,10), m 5", || original::cand(&segment(10, 5, 0, 10)));
    probe("rows 0 0 0 0, m 1, threshold -1, nodes", || nodes(&[0.0; 4], 1, -1.0));
    let rows = column(&[0.0, 1.0, 3.0, 7.0]);
    probe("gain of [1,3) at 0", || original::gain(&rows, 1, 3, 0).0);
    probe("gain of [0,2) at 3", || original::gain(&rows, 0, 2, 3).0);
    probe("gain of [3,1) at 2", || original::gain(&rows, 3, 1, 2).0);
    probe("gain of [2,2) at 2", || original::gain(&rows, 2, 2, 2).0);
    probe("gain of [0,5) at 2, n 4", || original::gain(&rows, 0, 5, 2).0);
    probe("search of [0,6), n 4, m 1", || original::search(&rows, &segment(4, 1, 0, 6)).split);
    probe("neighbours in [2,2), split 2", || original::knn(&rows, 2, 2, 2));
    probe("neighbours in [1,3), split 0", || original::knn(&rows, 1, 3, 0));
    probe("neighbours in [1,3), split 4", || original::knn(&rows, 1, 3, 4));
    probe("neighbours in [3,1), split 2", || original::knn(&rows, 3, 1, 2));
    probe("neighbours in [0,5), split 2, n 4", || original::knn(&rows, 0, 5, 2));
}

/// The Rust as it was, and with what document 02 asks to be otherwise.
fn itself() {
    let probes: [(&str, &[f64], _, _, _); 7] = [
        ("5 5 9", &[5.0, 5.0, 9.0], 0, 3, 1),
        ("1e-200 0 9", &[1e-200, 0.0, 9.0], 0, 3, 1),
        ("1e-160 0 9", &[1e-160, 0.0, 9.0], 0, 3, 1),
        ("0 -0 9", &[0.0, -0.0, 9.0], 0, 3, 1),
        ("5 5 9 6", &[5.0, 5.0, 9.0, 6.0], 1, 4, 2),
        ("5 5 5 5", &[5.0; 4], 0, 4, 2),
        ("0 1 3 7", &[0.0, 1.0, 3.0, 7.0], 0, 4, 2),
    ];
    for (rows, cells, start, stop, split) in probes {
        let asked = format!("rows {rows}, neighbours in [{start},{stop}), split {split}");
        let matrix = column(cells);
        probe(&format!("{asked}, the first dropped"), || before::knn(&matrix, start, stop, split));
        probe(&format!("{asked}, the row itself dropped"), || {
            original::knn(&matrix, start, stop, split)
        });
    }
}

fn picks() {
    let three = segment(3, 1, 0, 3);
    probe("pick of [0,3), m 1, guess 0, all NaN", || original::pick(&three, 0, &[NAN; 3]));
    probe("pick of [0,3), m 1, guess 1, curve of 1", || original::pick(&three, 1, &[0.0]));
    probe("pick of [0,3), m 1, guess 1, curve of 4", || original::pick(&three, 1, &[0.0; 4]));
    let past = segment(4, 1, 0, 6);
    probe("pick of [0,6), n 4, m 1, guess 1, curve of 6", || original::pick(&past, 1, &[0.0; 6]));
    probe("guesses of [0,6), n 4, m 1", || original::guesses(&past));
}

fn curves() {
    probe("curve of no likelihoods", || original::curve(&[], &[]));
    probe("curve of 4097 likelihoods, entries", || {
        original::curve(&[0.0; 4_097], &[0.0; 4_097]).len()
    });
    for odd in [INF, -INF, NAN] {
        probe(&format!("curve of l0 {odd} 1 2, l1 0 1 2"), || {
            original::curve(&[odd, 1.0, 2.0], &[0.0, 1.0, 2.0])
        });
        probe(&format!("curve of l0 0 1 2, l1 {odd} 1 2"), || {
            original::curve(&[0.0, 1.0, 2.0], &[odd, 1.0, 2.0])
        });
    }
}

/// One permutation in place, alpha 0.5, base 0 for every curve.
fn permuted(l: usize, m: usize, deltas: &[Vec<f64>], max: f64) -> Perm {
    Perm {
        shortest: whole(m),
        alpha: 0.5,
        p: 1,
        max,
        k: deltas.len(),
        bases: vec![0.0; deltas.len()],
        deltas: deltas.into(),
        perms: (0..l).collect(),
    }
}

fn permutations() {
    let counter = |l: usize, m: usize, deltas: &[Vec<f64>], max: f64| {
        original::permuted(&permuted(l, m, deltas, max), l).0
    };
    let two = [vec![1.0, 0.0]];
    probe("L 2, m 1, deltas 1 0, maximum 1, counter", || counter(2, 1, &two, 1.0));
    probe("L 2, m 2, deltas 1 0, maximum 1, counter", || counter(2, 2, &two, 1.0));
    probe("L 2, m 0, deltas 1 0, maximum 1, counter", || counter(2, 0, &two, 1.0));
    probe("L 1, m 1, delta 1, maximum 1, counter", || counter(1, 1, &[vec![1.0]], 1.0));
    probe("L 3, m 1, no curve, counter", || counter(3, 1, &[], 1.0));
    let four = vec![vec![0.0; 3], vec![0.0; 3], vec![0.0; 3], vec![1.0; 3]];
    probe("L 3, m 1, four curves, counter", || counter(3, 1, &four, 1.0));
    let infinite = [vec![INF, 0.0, 0.0]];
    probe("L 3, m 1, deltas inf 0 0, maximum 1, counter", || counter(3, 1, &infinite, 1.0));
    probe("L 3, m 1, deltas NaN 0 0, maximum 1, counter", || {
        counter(3, 1, &[vec![NAN, 0.0, 0.0]], 1.0)
    });
    let zeros = [vec![0.0; 3]];
    for odd in [INF, -INF, NAN] {
        let case = Perm { bases: vec![odd], ..permuted(3, 1, &zeros, 1.0) };
        probe(&format!("L 3, m 1, deltas 0 0 0, base {odd}, maximum 1, counter"), || {
            original::perm(&case).0
        });
    }
    for odd in [INF, -INF, NAN] {
        probe(&format!("L 3, m 1, deltas 0 0 0, maximum {odd}, counter"), || {
            counter(3, 1, &zeros, odd)
        });
    }
    for length in [1, 4] {
        let unequal = [vec![0.0; 3], vec![0.0; length]];
        probe(&format!("L 3, m 1, a second curve of {length}, counter"), || {
            counter(3, 1, &unequal, 1.0)
        });
    }
    probe("L 4097, m 1, counter", || counter(4_097, 1, &[vec![0.0; 4_097]], 1.0));
    for places in [[0, 0, 2], [3, 0, 1], [0, 1, 3]] {
        let case = Perm { perms: places.into(), ..permuted(3, 1, &[vec![1.0, 0.0, 0.0]], 2.0) };
        probe(&format!("L 3, m 1, deltas 1 0 0, maximum 2, places {places:?}, counter"), || {
            original::perm(&case).0
        });
    }
    let many = Perm { p: 1_000, perms: [0, 1, 2].repeat(1_000), ..permuted(3, 1, &zeros, 0.0) };
    probe("L 3, m 1, 1000 permutations, counter", || original::perm(&many).0);
}

/// Stands for a search: keeps what segments it is asked for, and gives up after many.
struct Asked {
    control: Control,
    segments: RefCell<Vec<(usize, usize)>>,
}

const MANY: usize = 1_000_000;

impl Optimizer for Asked {
    fn n(&self) -> usize {
        4
    }
    fn control(&self) -> &Control {
        &self.control
    }
    fn find_best_split(&self, start: usize, stop: usize) -> Result<OptimizerResult, &str> {
        self.segments.borrow_mut().push((start, stop));
        assert!(self.segments.borrow().len() <= MANY);
        Err("not searched")
    }
    fn model_selection(&self, _: &OptimizerResult) -> ModelSelectionResult {
        unreachable!()
    }
}

fn layers() {
    for value in [0.5, 1.0, 2.0, 0.0, NAN, -0.5, INF] {
        let mut control = Control::default();
        control.lent_layers = vec![value];
        let asked = Asked { control, segments: RefCell::default() };
        let new = || drop(Segmentation::new(SegmentationType::SBS, &asked));
        let ended = catch_unwind(AssertUnwindSafe(new)).is_ok();
        let segments = asked.segments.into_inner();
        match (ended, segments.len()) {
            (true, _) => println!("layer {value}, n 4: {segments:?}"),
            (false, 0) => println!("layer {value}, n 4: panics"),
            (false, _) => println!("layer {value}, n 4: more than {MANY} segments"),
        }
    }
    let records = |n: usize, layers: &[f64]| {
        let lists = Lists { layers: layers.into(), ..Lists::default() };
        let stored = storing(column(&vec![0.0; n]), lists);
        original::tree(&Tree { stored, threshold: 0.0 }).records.len()
    };
    probe("layer 1/5000, n 4, records", || records(4, &[1.0 / 5000.0]));
    probe("65 layers of 0.5, n 6, m 1, records", || records(6, &[0.5; 65]));
}

/// How many records a list of draws leaves of n rows of 0, m being 1, and whether some draws are left:
/// where none are, and fewer than W records stand, the Rust itself draws on.
fn drawn(n: usize, draws: &[[usize; 2]], w: usize) -> (usize, bool) {
    let lists = Lists { draws: draws.concat(), w, ..Lists::default() };
    let stored = original::stored(&storing(column(&vec![0.0; n]), lists));
    (stored.len(), rand::draws_left())
}

fn draws() {
    let every = [0, 1, 2].map(|start| [0, 1, 2].map(|stop| [start, stop])).concat();
    let many: Vec<_> = every.into_iter().cycle().take(MANY).collect();
    let told = "records, and whether draws are left";
    probe(&format!("{MANY} draws, all pairs of 0 1 2 in turn, n 2, W 1, {told}"), || {
        drawn(2, &many, 1)
    });
    probe(&format!("draw (0,3), n 3, W 0, {told}"), || drawn(3, &[[0, 3]], 0));
    probe(&format!("4098 draws (0,3), n 3, W 4097, {told}"), || drawn(3, &[[0, 3]; 4_098], 4_097));
    probe(&format!("draw (0,6), n 4, W 1, {told}"), || drawn(4, &[[0, 6]], 1));
    probe(&format!("draw (6,5), n 4, W 1, {told}"), || drawn(4, &[[6, 5]], 1));
    probe(&format!("draws (0,4) (0,6), n 4, W 1, {told}"), || drawn(4, &[[0, 4], [0, 6]], 1));
    probe("layer 0.5, n 6, W 4097, records", || {
        let lists = Lists { layers: vec![0.5], w: 4_097, ..Lists::default() };
        original::stored(&storing(column(&[0.0; 6]), lists)).len()
    });
    probe("W by default", || Control::default().number_of_wild_segments);
}

/// powi(2) is one product, on bit patterns of every sort.
fn square() {
    let mut state: u64 = 1;
    let unequal = (0..MANY).filter(|_| {
        state =
            state.wrapping_mul(6_364_136_223_846_793_005).wrapping_add(1_442_695_040_888_963_407);
        let value = f64::from_bits(state ^ (state >> 33));
        let (power, product) = (changeforest::utils::square(value), value * value);
        power.to_bits() != product.to_bits() && !(power.is_nan() && product.is_nan())
    });
    println!("powi(2) unequal to one product, of {MANY} patterns: {}", unequal.count());
}

fn main() {
    std::panic::set_hook(Box::new(|_| ()));
    sizes_and_lengths();
    thresholds();
    cells_and_pairs();
    ends_and_splits();
    itself();
    picks();
    curves();
    permutations();
    layers();
    draws();
    square();
}
