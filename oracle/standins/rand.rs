//! A stand-in for the crate `rand`: `seq::index::sample` hands out lent permutations, one a call, and a
//! distribution's `sample` lent numbers. Nothing here draws.

use std::cell::RefCell;
use std::collections::VecDeque;

thread_local! {
    static PERMUTATIONS: RefCell<VecDeque<Vec<usize>>> = const { RefCell::new(VecDeque::new()) };
    static DRAWS: RefCell<VecDeque<usize>> = const { RefCell::new(VecDeque::new()) };
}

/// Lends the permutations that the next calls of `sample` hand out.
pub fn lend_permutations(permutations: impl Iterator<Item = Vec<usize>>) {
    PERMUTATIONS.set(permutations.collect());
}

/// Lends the numbers that the next calls of a distribution's `sample` hand out.
pub fn lend_draws(draws: &[usize]) {
    DRAWS.set(draws.iter().copied().collect());
}

/// Whether some of them are left: WBS, as patched, ends with the last.
pub fn draws_left() -> bool {
    DRAWS.with_borrow(|draws| !draws.is_empty())
}

pub trait SeedableRng {
    fn seed_from_u64(seed: u64) -> Self;
}

pub mod rngs {
    pub struct StdRng;

    impl super::SeedableRng for StdRng {
        fn seed_from_u64(_: u64) -> Self {
            StdRng
        }
    }
}

pub mod seq {
    pub mod index {
        pub struct IndexVec(Vec<usize>);

        impl IndexVec {
            pub fn iter(&self) -> impl Iterator<Item = usize> + '_ {
                self.0.iter().copied()
            }
        }

        pub fn sample(_: &mut crate::rngs::StdRng, length: usize, amount: usize) -> IndexVec {
            let lent = crate::PERMUTATIONS.with_borrow_mut(|lent| lent.pop_front());
            let permutation = lent.expect("no permutation is lent");
            assert!(permutation.len() == length && length == amount);
            IndexVec(permutation)
        }
    }
}

pub mod distributions {
    pub trait Distribution<T> {
        fn sample(&self, rng: &mut crate::rngs::StdRng) -> T;
    }

    pub struct Uniform;

    impl From<std::ops::Range<usize>> for Uniform {
        fn from(_: std::ops::Range<usize>) -> Self {
            Uniform
        }
    }

    impl Distribution<usize> for Uniform {
        fn sample(&self, _: &mut crate::rngs::StdRng) -> usize {
            crate::DRAWS.with_borrow_mut(|draws| draws.pop_front()).expect("no draw is lent")
        }
    }
}
