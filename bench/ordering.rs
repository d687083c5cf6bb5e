// The orders of 1,024 rows of 8 columns: the proved library beside a plain Rust program with the standard library's sort.
use std::hint::black_box;

mod common;
use common::{cells, timed};

extern "C" {
    fn changeforest_ordering(
        cells: *const f64, cells_len: usize, n: usize, d: usize,
        ordering: *mut u32, ordering_len: usize, distances: *mut f64, distances_len: usize,
    ) -> u32;
}

const N: usize = 1024;
const D: usize = 8;
const RUNS: usize = 3;

fn square_distance(a: &[f64], b: &[f64]) -> f64 {
    let mut sum = 0.0;
    for (x, y) in a.iter().zip(b) {
        sum += (x - y) * (x - y);
    }
    sum
}

/// Equal distances by lower index, which a stable sort of ascending rows gives.
fn plain(cells: &[f64], ordering: &mut [u32], distances: &mut [f64]) {
    let (n, d) = (black_box(N), black_box(D));
    for i in 0..n {
        for j in 0..n {
            distances[j] = square_distance(&cells[i * d..i * d + d], &cells[j * d..j * d + d]);
        }
        let order = &mut ordering[i * n..i * n + n];
        for j in 0..n {
            order[j] = j as u32;
        }
        order.sort_by(|&a, &b| distances[a as usize].partial_cmp(&distances[b as usize]).unwrap());
    }
}

fn proved(cells: &[f64], ordering: &mut [u32], distances: &mut [f64]) {
    let no = unsafe {
        changeforest_ordering(
            cells.as_ptr(), cells.len(), N, D,
            ordering.as_mut_ptr(), ordering.len(), distances.as_mut_ptr(), distances.len(),
        )
    };
    assert_eq!(no, 0);
}

fn main() {
    let cells = cells(N, D);
    let (mut a, mut b) = (vec![0u32; N * N], vec![0u32; N * N]);
    let (mut x, mut y) = (vec![0.0; N], vec![0.0; N]);
    plain(&cells, &mut a, &mut x);
    proved(&cells, &mut b, &mut y);
    assert!(a == b && x.iter().zip(&y).all(|(p, q)| p.to_bits() == q.to_bits()));
    let p = timed(RUNS, || plain(black_box(&cells), &mut a, &mut x));
    let q = timed(RUNS, || proved(black_box(&cells), &mut b, &mut y));
    println!("ordering of {N} rows, {D} columns: plain Rust {p:.0} us, proved {q:.0} us, ratio {:.2} (the proved call also checks every cell)", p / q);
}
