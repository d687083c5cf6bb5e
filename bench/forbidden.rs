// Long forbidden lists: the calls that look for candidates, over 4,096 rows of 8 columns, with 400 pairs that bar every tenth row beside none.
// A line for each call and list. Beside it small runs, whose time is what a call takes before its first row.
use std::hint::black_box;

mod common;
use common::{cells, timed};

// As the header has them.
#[repr(C)]
#[derive(Clone, Copy, Default)]
struct Record {
    start: usize,
    stop: usize,
    split: usize,
    gain: f64,
    kind: usize,
    number: usize,
}

#[repr(C)]
#[derive(Clone, Copy, Default)]
struct Node {
    start: usize,
    stop: usize,
    significant: bool,
    has_choice: bool,
    choice: Record,
    left: usize,
    right: usize,
}

extern "C" {
    fn changeforest_split_candidates(
        n: usize, m: usize, closed: bool, forbidden: *const usize, forbidden_len: usize, start: usize, stop: usize,
        rows: *mut usize, rows_len: usize, count: *mut usize,
    ) -> u32;
    fn changeforest_find_best_split(
        cells: *const f64, cells_len: usize, n: usize, d: usize, m: usize, closed: bool,
        forbidden: *const usize, forbidden_len: usize, start: usize, stop: usize,
        sums: *mut f64, sums_len: usize, split: *mut usize, gain: *mut f64,
    ) -> u32;
    fn changeforest_tree(
        cells: *const f64, cells_len: usize, n: usize, d: usize, m: usize, closed: bool, threshold: f64,
        forbidden: *const usize, forbidden_len: usize, layers: *const f64, layers_len: usize, draws: *const usize, draws_len: usize, w: usize,
        sums: *mut f64, sums_len: usize, rows: *mut usize, rows_len: usize, gains: *mut f64, gains_len: usize,
        nodes: *mut Node, nodes_len: usize, cuts: *mut usize, cuts_len: usize, counts: *mut usize, counts_len: usize,
    ) -> u32;
    fn changeforest_pick(
        curve: *const f64, curve_len: usize, n: usize, m: usize, closed: bool, forbidden: *const usize, forbidden_len: usize,
        start: usize, stop: usize, guess: usize, split: *mut usize, gain: *mut f64,
    ) -> u32;
    fn changeforest_guesses(
        n: usize, m: usize, closed: bool, given: bool, forbidden: *const usize, forbidden_len: usize, start: usize, stop: usize,
        first: *mut usize, second: *mut usize, third: *mut usize, count: *mut usize,
    ) -> u32;
}

/// A run with what its calls write to.
struct Run {
    cells: Vec<f64>,
    n: usize,
    d: usize,
    m: usize,
    threshold: f64,
    sums: Vec<f64>,
    rows: Vec<usize>,
    gains: Vec<f64>,
    nodes: Vec<Node>,
    cuts: Vec<usize>,
}

impl Run {
    fn new(n: usize, d: usize, m: usize, threshold: f64) -> Run {
        let b = 2 * n;
        Run {
            cells: cells(n, d), n, d, m, threshold, sums: vec![0.0; (n + 1) * d],
            rows: vec![0; 5 * b], gains: vec![0.0; b], nodes: vec![Node::default(); b], cuts: vec![0; b],
        }
    }

    fn candidates(&mut self, f: &[usize]) -> usize {
        let mut count = 0;
        let no = unsafe {
            changeforest_split_candidates(self.n, self.m, false, f.as_ptr(), f.len(), 0, self.n, self.rows.as_mut_ptr(), self.rows.len(), &mut count)
        };
        assert_eq!(no, 0);
        count
    }

    fn search(&mut self, f: &[usize]) -> usize {
        let (mut split, mut gain) = (0, 0.0);
        let no = unsafe {
            changeforest_find_best_split(
                self.cells.as_ptr(), self.cells.len(), self.n, self.d, self.m, false, f.as_ptr(), f.len(), 0, self.n,
                self.sums.as_mut_ptr(), self.sums.len(), &mut split, &mut gain,
            )
        };
        assert_eq!(no, 0);
        split
    }

    fn tree(&mut self, f: &[usize]) -> usize {
        let mut counts = [0; 4];
        let (none, no_layers): ([usize; 0], [f64; 0]) = ([], []);
        let no = unsafe {
            changeforest_tree(
                self.cells.as_ptr(), self.cells.len(), self.n, self.d, self.m, false, self.threshold, f.as_ptr(), f.len(),
                no_layers.as_ptr(), 0, none.as_ptr(), 0, 0, self.sums.as_mut_ptr(), self.sums.len(),
                self.rows.as_mut_ptr(), self.rows.len(), self.gains.as_mut_ptr(), self.gains.len(),
                self.nodes.as_mut_ptr(), self.nodes.len(), self.cuts.as_mut_ptr(), self.cuts.len(), counts.as_mut_ptr(), 4,
            )
        };
        assert_eq!(no, 0);
        counts[0]
    }

    /// The curve is the run's first column or what is left of it.
    fn pick(&mut self, f: &[usize]) -> usize {
        let (mut split, mut gain) = (0, 0.0);
        let no = unsafe {
            changeforest_pick(self.cells.as_ptr(), self.n, self.n, self.m, false, f.as_ptr(), f.len(), 0, self.n, self.m, &mut split, &mut gain)
        };
        assert_eq!(no, 0);
        split
    }

    fn guesses(&mut self, f: &[usize]) -> usize {
        let (mut a, mut b, mut c, mut count) = (0, 0, 0, 0);
        let no = unsafe { changeforest_guesses(self.n, self.m, false, true, f.as_ptr(), f.len(), 0, self.n, &mut a, &mut b, &mut c, &mut count) };
        assert_eq!(no, 0);
        b
    }
}

/// Entries in an order made from a fixed seed.
fn shuffled(pairs: &[[usize; 2]]) -> Vec<[usize; 2]> {
    let mut all = pairs.to_vec();
    let mut state = 2u64;
    for i in (1..all.len()).rev() {
        state = state.wrapping_mul(6364136223846793005).wrapping_add(1442695040888963407);
        all.swap(i, (state >> 33) as usize % (i + 1));
    }
    all
}

fn flat(pairs: &[[usize; 2]]) -> Vec<usize> {
    pairs.iter().flatten().copied().collect()
}

fn main() {
    // every tenth row; ten rows of a hundred, each ten by ten pairs that overlap; and most of the run, by pairs one inside the other
    let tenth: Vec<[usize; 2]> = (0..400).map(|i| [10 * i + 9, 10 * i + 10]).collect();
    let overlapping: Vec<[usize; 2]> = (0..400).map(|i| [100 * (i / 10) + 40 + i % 10, 100 * (i / 10) + 50]).collect();
    let nested: Vec<[usize; 2]> = (0..400).map(|i| [100 + i, 3900 - i]).collect();
    let lists = [
        ("none", vec![]),
        ("sorted", flat(&tenth)),
        ("shuffled", flat(&shuffled(&tenth))),
        ("overlapping", flat(&shuffled(&overlapping))),
        ("nested", flat(&nested)),
    ];
    let calls: [(&str, usize, fn(&mut Run, &[usize]) -> usize); 5] =
        [("search", 100, Run::search), ("tree", 10, Run::tree), ("candidates", 1000, Run::candidates), ("pick", 200, Run::pick), ("guesses", 100, Run::guesses)];
    let threshold: f64 = std::env::args().nth(1).map_or(0.5, |s| s.parse().unwrap());
    let mut run = Run::new(4096, 8, 8, threshold);
    for (name, runs, call) in calls {
        let mut none = 0.0;
        for (list, f) in &lists {
            let answer = call(&mut run, f);
            let t = timed(runs, || { black_box(call(&mut run, black_box(f))); });
            if f.is_empty() {
                none = t;
            }
            println!("{name} {list}: {answer}; {t:.2} us, {:.3} of none", t / none);
        }
    }
    for n in [8, 64, 512] {
        let mut run = Run::new(n, 1, 1, 0.0);
        for (name, _, call) in calls {
            for f in [vec![], vec![1, 2]] {
                let answer = call(&mut run, &f);
                let t = timed(1000, || { black_box(call(&mut run, black_box(&f))); });
                println!("{name} of {n} rows, {} pairs: {answer}; {t:.3} us", f.len() / 2);
            }
        }
    }
}
