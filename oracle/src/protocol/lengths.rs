//! `rel` and `f32`.

use crate::text::narrow_bits;
use crate::{Fields, Kind};

pub struct Rel {
    pub r: f64,
    pub n: usize,
}

impl Kind for Rel {
    /// R N
    fn read(fields: &mut Fields) -> Option<Self> {
        Some(Rel { r: fields.value()?, n: fields.number()? })
    }
}

impl Rel {
    pub fn answer(m: usize) -> String {
        format!(" {m}")
    }
}

pub struct F32 {
    pub x: f64,
}

impl Kind for F32 {
    /// X
    fn read(fields: &mut Fields) -> Option<Self> {
        Some(F32 { x: fields.value()? })
    }
}

impl F32 {
    pub fn answer(nearest: f32) -> String {
        format!(" {}", narrow_bits(nearest))
    }
}
