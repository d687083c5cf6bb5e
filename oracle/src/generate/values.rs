//! Values: readings, likelihoods, deltas, layer values, each of several sorts.

use crate::random::Random;

#[derive(Clone, Copy)]
pub enum Sort {
    Even,
    Whole,
    Tenths,
    Huge,
    Zero,
    Tiny,
    Bits,
}

const SORTS: [Sort; 7] =
    [Sort::Even, Sort::Whole, Sort::Tenths, Sort::Huge, Sort::Zero, Sort::Tiny, Sort::Bits];

pub fn sort(random: &mut Random) -> Sort {
    SORTS[random.weighted(&[8, 10, 4, 3, 1, 2, 3])]
}

fn signed(random: &mut Random, value: f64) -> f64 {
    if random.one_in(2) {
        value
    } else {
        -value
    }
}

pub fn value(random: &mut Random, sort: Sort) -> f64 {
    match sort {
        Sort::Even => random.bits() as i64 as f64 / (1_u64 << 63) as f64,
        Sort::Whole => random.between(0, 6) as f64 - 3.0,
        Sort::Tenths => (random.between(0, 40) as f64 - 20.0) / 10.0,
        Sort::Huge => {
            let size = random.of(&[f64::MAX, f64::MAX / 2.0, 1e308, 1e200, 1e155, 1e154, 1.0]);
            signed(random, size)
        }
        Sort::Zero => 0.0,
        Sort::Tiny => {
            let size = random.of(&[0, 1, 2, 1 << 51, (1 << 52) - 1, 1 << 52, 0x1ff << 52]);
            signed(random, f64::from_bits(size))
        }
        Sort::Bits => loop {
            let value = f64::from_bits(random.bits());
            if value.is_finite() {
                return value;
            }
        },
    }
}

/// Values of one sort, now and then of several.
pub fn values(random: &mut Random, count: u64) -> Vec<f64> {
    let all = sort(random);
    let mixed = random.one_in(8);
    let mut values = vec![];
    for _ in 0..count {
        let sort = if mixed { sort(random) } else { all };
        values.push(value(random, sort));
    }
    values
}

/// Readings: values, often with a shift at one or more rows; now and then some rows repeat.
pub fn cells(random: &mut Random, n: u64, d: u64) -> Vec<f64> {
    let mut cells = values(random, n * d);
    if random.one_in(2) {
        shift(random, &mut cells, n, d);
    }
    if random.one_in(4) {
        for _ in 0..n / 2 {
            let (from, to) = (random.below(n), random.below(n));
            let row = (from * d) as usize..((from + 1) * d) as usize;
            cells.copy_within(row, (to * d) as usize);
        }
    }
    cells
}

fn shift(random: &mut Random, cells: &mut [f64], n: u64, d: u64) {
    for _ in 0..random.between(1, 3) {
        let from = (random.below(n) * d) as usize;
        let by = random.of(&[1.0, 2.0, 8.0, -5.0, 0.1, 1e6]);
        for cell in &mut cells[from..] {
            if (*cell + by).is_finite() {
                *cell += by;
            }
        }
    }
}

pub fn not_finite(random: &mut Random) -> f64 {
    let odd = 0x7ff0_0000_0000_0001 | (random.bits() >> 12);
    f64::from_bits(random.of(&[0x7ff0 << 48, 0xfff0 << 48, 0x7ff8 << 48, 0xfff8 << 48, odd]))
}

/// A value some places above or below, among the positive finite ones.
pub fn beside(random: &mut Random, value: f64) -> f64 {
    let places = random.of(&[0, 0, 1, 2, 1 << 20, 1 << 28, 1 << 29, 1 << 30]);
    f64::from_bits(if random.one_in(2) {
        value.to_bits() + places
    } else {
        value.to_bits() - places
    })
}

pub const SMALLEST_LAYER: f64 = 1.0 / 4096.0;

/// Layer values, mostly few and not small, since a value v makes about 2/v segments.
pub fn layers(random: &mut Random) -> Vec<f64> {
    match random.weighted(&[30, 20, 15, 10, 15, 1, 2, 8]) {
        0 => vec![],
        1 => {
            let base = random.of(&[0.5, std::f64::consts::FRAC_1_SQRT_2, 0.9, 0.8, 2.0 / 3.0]);
            let mut value = 1.0;
            let next = |_| {
                value *= base;
                value
            };
            (0..random.between(1, 6)).map(next).collect()
        }
        2 => (0..random.between(1, 3))
            .map(|_| {
                let whole = random.between(2, 30) as f64;
                beside(random, 1.0 / whole)
            })
            .collect(),
        3 => (0..random.between(1, 3))
            .map(|_| 1.0 - 2.0_f64.powi(-(random.between(1, 53) as i32)))
            .collect(),
        4 => (0..random.between(1, 3))
            .map(|_| 0.04 + 0.96 * (random.bits() >> 11) as f64 / (1_u64 << 53) as f64)
            .map(|value| value.min(1.0 - f64::EPSILON))
            .collect(),
        5 => {
            let near = beside(random, SMALLEST_LAYER).max(SMALLEST_LAYER);
            vec![random.of(&[SMALLEST_LAYER, near, 0.001, 0.0003])]
        }
        6 => (0..64).map(|_| random.of(&[0.5, 0.25, 0.9])).collect(),
        _ => alike(random),
    }
}

/// Layers with the same segments, behind some whose segments are nearly the run.
fn alike(random: &mut Random) -> Vec<f64> {
    let mut layers = vec![0.99; random.of(&[0, 0, 1, 2, 9, 60])];
    let [one, other] = [(); 2].map(|()| random.of(&[0.75, 0.5, 1.0 / 3.0, 0.25, 0.2]));
    layers.extend([one, other, one, one]);
    layers
}

/// Layers of many short segments of 4,096 rows. Of segments in which m = 1 leaves a candidate a layer
/// has 4,095 at most, with a value just above 2/4096; nearer to that the last one is cut short. With a
/// closed end it has 8,191, with a value just above 1/4096.
pub fn fine_layers(random: &mut Random, closed: bool, count: usize) -> Vec<f64> {
    let rows = if closed { 1.0 } else { 2.0 };
    let least = rows * SMALLEST_LAYER * (1.0 + 2.0_f64.powi(random.of(&[-12, -12, -22])));
    let spread = random.of(&[0.0, 0.0, 0.5, 6.0]) * SMALLEST_LAYER;
    let value =
        |random: &mut Random| least + spread * (random.bits() >> 11) as f64 / (1_u64 << 53) as f64;
    (0..count).map(|_| value(random)).collect()
}

pub fn bad_layer(random: &mut Random) -> f64 {
    let below = f64::from_bits(SMALLEST_LAYER.to_bits() - 1);
    random.of(&[1.0, 2.0, 0.0, -0.0, -0.5, below, 5e-324, f64::INFINITY, f64::NAN, 1.0 + 1e-15])
}
