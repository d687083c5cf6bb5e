//! Stands for the module `utils`, which isn't in the text: `log_eta`, never called, and what the
//! patches take and keep.

use crate::optimizer::OptimizerResult;
use crate::{Control, ModelSelectionResult, Optimizer};
use ndarray::Array1;
use std::cell::RefCell;

pub fn log_eta(_: f64) -> f64 {
    unimplemented!("log_eta isn't in the text")
}

/// Deltas and base sum of each lent curve.
pub type Curves = (Vec<Array1<f64>>, Vec<f64>);

thread_local! {
    /// What `ClassifierGain::model_selection` takes for its deltas and base sums, when lent.
    pub static LENT_CURVES: RefCell<Option<Curves>> = const { RefCell::new(None) };
    /// The last row's distances of the ordering worked out last.
    pub static LAST_DISTANCES: RefCell<Vec<f64>> = const { RefCell::new(Vec::new()) };
}

/// Where a result comes from: a search by itself, a layer's, numbered from 1, or a draw's, from 0.
#[derive(Clone, Copy, Debug, PartialEq, Eq)]
pub enum Origin {
    Direct,
    Layer(usize),
    Draw(usize),
}

/// An optimizer whose results come from a layer or a draw.
pub struct WithOrigin<'a>(pub &'a dyn Optimizer, pub Origin);

impl Optimizer for WithOrigin<'_> {
    fn n(&self) -> usize {
        self.0.n()
    }
    fn control(&self) -> &Control {
        self.0.control()
    }
    fn find_best_split(&self, start: usize, stop: usize) -> Result<OptimizerResult, &str> {
        let found = self.0.find_best_split(start, stop)?;
        Ok(OptimizerResult { origin: self.1, ..found })
    }
    fn model_selection(&self, result: &OptimizerResult) -> ModelSelectionResult {
        self.0.model_selection(result)
    }
}

/// The power of the carried functions, as this crate's flags compile it.
pub fn square(value: f64) -> f64 {
    value.powi(2)
}
