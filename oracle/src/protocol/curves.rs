//! `curve` and `perm`.

use crate::text::{bits, values};
use crate::{Capacities, Fields, Kind, Shortest, Slice};

pub struct Curve {
    pub l0: Vec<f64>,
    pub l1: Vec<f64>,
}

impl Kind for Curve {
    /// L0 L1
    fn read(fields: &mut Fields) -> Option<Self> {
        Some(Curve { l0: fields.curve()?, l1: fields.curve()? })
    }

    /// Output.
    fn lends(&self, capacities: &Capacities) -> Vec<Slice> {
        vec![capacities.curve(self.l0.len())]
    }
}

impl Curve {
    pub fn answer(curve: &[f64]) -> String {
        values(curve)
    }
}

pub struct Perm {
    pub shortest: Shortest,
    pub alpha: f64,
    pub p: usize,
    pub max: f64,
    pub k: usize,
    pub bases: Vec<f64>,
    pub deltas: Vec<Vec<f64>>,
    pub perms: Vec<usize>,
}

impl Kind for Perm {
    /// M ALPHA P MAX K BASE.. DELTAS.. PERMS
    fn read(fields: &mut Fields) -> Option<Self> {
        let (shortest, alpha) = (fields.shortest()?, fields.value()?);
        let (p, max, k) = (fields.number()?, fields.value()?, fields.number()?);
        let bases = fields.counted(k)?;
        let deltas = (0..k).map(|_| fields.curve()).collect::<Option<_>>()?;
        let perms = fields.permutations()?;
        Some(Perm { shortest, alpha, p, max, k, bases, deltas, perms })
    }
}

impl Perm {
    pub fn answer(counter: usize, p_value: f64, significant: bool) -> String {
        format!(" {counter} {} {}", bits(p_value), u8::from(significant))
    }
}
