//! Why a call was refused.
use std::{error, fmt};

/// Why a call gives no answer. What was lent to it is as it was.
#[derive(Clone, Copy, Debug, PartialEq, Eq, Hash)]
pub struct Refusal(u32);

impl Refusal {
    /// The call was not made: the system gave no thread for a tree that can be deep.
    pub(crate) const NO_THREAD: Refusal = Refusal(0);

    /// The number of the refusal, 1 to 14; the lowest that applies. 0 where the library was not called, since the system gave no thread
    /// for a tree that can be deep.
    pub fn number(self) -> u32 {
        self.0
    }
}

/// A call's number as a result: the value where it is 0.
pub(crate) fn unless<T>(number: u32, value: T) -> Result<T, Refusal> {
    match number {
        0 => Ok(value),
        number => Err(Refusal(number)),
    }
}

impl fmt::Display for Refusal {
    fn fmt(&self, f: &mut fmt::Formatter) -> fmt::Result {
        let why = match self.number() {
            0 => "not called: no thread for a deep tree",
            1 => "n or d outside its size, or the matrix is not n*d",
            2 => "m outside its size, or a relative length not strictly between 0 and 0.5",
            3 => "the threshold is NaN, or alpha not strictly between 0 and 1",
            4 => "an infinite or NaN value",
            5 => "the forbidden list or the draws are odd, or a forbidden pair has a > b",
            6 => "more than 64 layers, a layer value not in [1/4096, 1), more than 4,096 to store, or layers and draws both",
            7 => "a lent slice is too short",
            8 => "no segment of the run, a split outside it, no row of the run, or a draw with stop > n",
            9 => "the segment has no candidate range",
            10 => "every candidate is forbidden",
            11 => "no list of permutations",
            12 => "the curves' number or lengths, or a guess that is no candidate",
            13 => "more cells than n*d",
            14 => "fewer cells were taken than n*d",
            _ => "no number of documents 01 and 02",
        };
        write!(f, "refusal {}: {}", self.0, why)
    }
}

impl error::Error for Refusal {}
