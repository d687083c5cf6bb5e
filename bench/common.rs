// What the benchmarks share: readings made from a fixed seed, and the least time of several rounds.
use std::time::Instant;

/// `n` rows of `d` readings, shifted at a third of the run.
pub fn cells(n: usize, d: usize) -> Vec<f64> {
    let mut state = 1u64;
    (0..n * d)
        .map(|i| {
            state = state.wrapping_mul(6364136223846793005).wrapping_add(1442695040888963407);
            let noise = (state >> 40) as f64 / (1u64 << 24) as f64;
            noise + if i / d < n / 3 { 0.0 } else { 0.25 }
        })
        .collect()
}

/// Microseconds of one run of `f`, the least mean of five rounds of `runs` runs.
pub fn timed(runs: usize, mut f: impl FnMut()) -> f64 {
    let mut best = f64::INFINITY;
    for _ in 0..5 {
        let from = Instant::now();
        for _ in 0..runs {
            f();
        }
        best = best.min(from.elapsed().as_secs_f64());
    }
    best / runs as f64 * 1e6
}
