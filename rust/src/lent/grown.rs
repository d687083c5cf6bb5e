//! What the calls that grow a tree share: the stack that they take, and what they count.
use std::thread;

use crate::refusal::unless;
use crate::{Counts, Refusal, Settings};

/// The counts that the call stores, made where there is stack enough for the tree of a run of so many rows.
pub(super) fn counted(
    rows: usize,
    settings: &Settings,
    call: impl FnOnce(&mut [usize; 4]) -> u32 + Send,
) -> Result<Counts, Refusal> {
    let mut counts = [0; 4];
    let no = grown(most_levels(rows, settings), || call(&mut counts))?;
    let [nodes, records, cuts, stored] = counts;
    unless(no, Counts { nodes, records, cuts, stored })
}

/// The stack that a tree takes, by the header's bounds: for each level, and besides, with what a thread takes itself.
const LEVEL: usize = 1 << 10;
const BESIDES: usize = 1 << 16;

/// Trees of at most so many levels are grown on the caller's stack.
const SHALLOW: usize = 128;

/// The most levels that a tree can have: the greater of 1 and floor((n-1)/m), with a closed end floor(n/m).
fn most_levels(rows: usize, settings: &Settings) -> usize {
    let rows = rows.min(4096).saturating_sub(usize::from(!settings.closed));
    (rows / settings.m.max(1)).max(1)
}

/// The call, on a thread with stack enough where the tree can be deep.
fn grown<T: Send>(levels: usize, call: impl FnOnce() -> T + Send) -> Result<T, Refusal> {
    if levels <= SHALLOW {
        return Ok(call());
    }
    on_thread(levels * LEVEL + BESIDES, call)
}

fn on_thread<T: Send>(stack: usize, call: impl FnOnce() -> T + Send) -> Result<T, Refusal> {
    let builder = thread::Builder::new().stack_size(stack);
    thread::scope(|scope| {
        let thread = builder.spawn_scoped(scope, call).map_err(|_| Refusal::NO_THREAD)?;
        Ok(thread.join().expect("the library does not panic"))
    })
}

#[cfg(test)]
mod tests {
    use super::*;

    #[test]
    fn levels_follow_the_setting() {
        let levels = |rows, m, closed| most_levels(rows, &Settings { m, closed, ..Settings::default() });
        assert_eq!([levels(4096, 1, false), levels(4096, 1, true)], [4095, 4096]);
        assert_eq!([levels(10, 5, false), levels(10, 5, true)], [1, 2]);
        assert_eq!([levels(1, 4096, false), levels(0, 0, false), levels(usize::MAX, 0, true)], [1, 1, 4096]);
    }

    #[test]
    fn no_thread_is_an_error() {
        assert_eq!(on_thread(BESIDES, || 7), Ok(7));
        assert_eq!(on_thread(1 << 46, || 7).map_err(Refusal::number), Err(0));
    }
}
