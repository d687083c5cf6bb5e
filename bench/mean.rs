// The grid search over 4,096 rows of 8 columns: the proved library beside a plain Rust program over a flat Vec.
use std::hint::black_box;

mod common;
use common::{cells, timed};

extern "C" {
    fn changeforest_find_best_split(
        cells: *const f64, cells_len: usize, n: usize, d: usize, m: usize, closed: bool,
        forbidden: *const usize, forbidden_len: usize, start: usize, stop: usize,
        sums: *mut f64, sums_len: usize, split: *mut usize, gain: *mut f64,
    ) -> u32;
}

const N: usize = 4096;
const D: usize = 8;
const M: usize = 41;
const RUNS: usize = 200;

fn cumsum(cells: &[f64], d: usize, sums: &mut [f64]) {
    sums[..d].fill(0.0);
    for k in 0..cells.len() {
        sums[d + k] = (0.0 + cells[k]) + sums[k];
    }
}

fn gain(sums: &[f64], d: usize, start: usize, stop: usize, split: usize) -> f64 {
    let s1 = (split - start) as f64;
    let s2 = (stop - split) as f64;
    let s = s1 + s2;
    let mut result = 0.0;
    for c in 0..d {
        let t = (s1 * sums[stop * d + c] + s2 * sums[start * d + c]) - s * sums[split * d + c];
        result += t * t;
    }
    result / (s * s1 * s2)
}

fn plain(cells: &[f64], sums: &mut [f64]) -> (usize, f64) {
    let (n, d, m) = (black_box(N), black_box(D), black_box(M));
    cumsum(cells, d, sums);
    let mut best = (0, f64::NEG_INFINITY);
    for split in m..n - m {
        let g = gain(sums, d, 0, n, split);
        if g > best.1 {
            best = (split, g);
        }
    }
    best
}

fn proved(cells: &[f64], sums: &mut [f64]) -> (usize, f64) {
    let (mut split, mut gain) = (0usize, 0f64);
    let none: [usize; 0] = [];
    let no = unsafe {
        changeforest_find_best_split(
            cells.as_ptr(), cells.len(), N, D, M, false, none.as_ptr(), 0, 0, N,
            sums.as_mut_ptr(), sums.len(), &mut split, &mut gain,
        )
    };
    assert_eq!(no, 0);
    (split, gain)
}

fn main() {
    let cells = cells(N, D);
    let (mut a, mut b) = (vec![0.0; (N + 1) * D], vec![0.0; (N + 1) * D]);
    let (x, y) = (plain(&cells, &mut a), proved(&cells, &mut b));
    assert_eq!((x.0, x.1.to_bits()), (y.0, y.1.to_bits()));
    assert!(a.iter().zip(&b).all(|(p, q)| p.to_bits() == q.to_bits()));
    let p = timed(RUNS, || { black_box(plain(black_box(&cells), &mut a)); });
    let q = timed(RUNS, || { black_box(proved(black_box(&cells), &mut b)); });
    println!("search of {N} rows, {D} columns: split {}, gain {:016x}; plain Rust {p:.1} us, proved {q:.1} us, ratio {:.2} (buffers not cleared; the proved call also checks every cell)", x.0, x.1.to_bits(), p / q);
}
