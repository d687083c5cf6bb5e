//! A stand-in for the crate `biosphere`: the settings that control.rs names, without any forest.

#[derive(Clone, Debug)]
pub enum MaxFeatures {
    Sqrt,
}

#[derive(Clone, Debug, Default)]
pub struct RandomForestParameters;

impl RandomForestParameters {
    pub fn with_max_depth(self, _: Option<usize>) -> Self {
        self
    }

    pub fn with_max_features(self, _: MaxFeatures) -> Self {
        self
    }

    pub fn with_n_jobs(self, _: Option<i32>) -> Self {
        self
    }
}
