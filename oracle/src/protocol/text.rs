//! The words of an answer that several kinds have.

use std::fmt::Write;

/// A value's bits; any NaN is written as one.
pub fn bits(value: f64) -> String {
    let bits = if value.is_nan() { 0x7ff8_0000_0000_0000 } else { value.to_bits() };
    format!("{bits:016x}")
}

pub(crate) fn narrow_bits(value: f32) -> String {
    let bits = if value.is_nan() { 0x7fc0_0000 } else { value.to_bits() };
    format!("{bits:08x}")
}

/// Whether both are the same values, any NaN being the same as any other.
pub fn same(a: &[f64], b: &[f64]) -> bool {
    let equal = |(a, b): (&f64, &f64)| a.to_bits() == b.to_bits() || (a.is_nan() && b.is_nan());
    a.len() == b.len() && a.iter().zip(b).all(equal)
}

/// Every item after a blank.
pub(crate) fn all<T: Copy>(items: &[T], show: impl Fn(T) -> String) -> String {
    items.iter().fold(String::new(), |mut text, item| {
        write!(text, " {}", show(*item)).expect("a string takes all");
        text
    })
}

pub(crate) fn rows(rows: &[usize]) -> String {
    all(rows, |row| row.to_string())
}

pub(crate) fn values(values: &[f64]) -> String {
    all(values, bits)
}
