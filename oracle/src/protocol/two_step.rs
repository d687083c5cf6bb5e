//! `pick` and `guesses`.

use crate::text::{bits, rows};
use crate::{Fields, Kind, Segment};

pub struct Pick {
    pub segment: Segment,
    pub guess: usize,
    pub curve: Vec<f64>,
}

impl Kind for Pick {
    /// N M F START STOP GUESS CURVE
    fn read(fields: &mut Fields) -> Option<Self> {
        let n = fields.number()?;
        let segment = fields.segment(n)?;
        Some(Pick { segment, guess: fields.number()?, curve: fields.curve()? })
    }
}

impl Pick {
    pub fn answer(split: usize, gain: f64) -> String {
        format!(" {split} {}", bits(gain))
    }
}

pub struct Guesses {
    pub segment: Segment,
}

impl Kind for Guesses {
    /// N M F START STOP
    fn read(fields: &mut Fields) -> Option<Self> {
        let n = fields.number()?;
        Some(Guesses { segment: fields.segment(n)? })
    }
}

impl Guesses {
    pub fn answer(guesses: &[usize]) -> String {
        rows(guesses)
    }
}
