//! Lent memory: what document 01 asks of each slice, with a closed end, draws or the text of an origin
//! document 02, and what docs/REPLAY.md lends. All lengths are exact.

use crate::{Capacities, Lists, Matrix, Segment, Shortest};

/// `short I K`.
#[derive(Clone, Copy)]
pub(crate) struct Short {
    pub slice: usize,
    pub less: usize,
}

/// A slice that a case lends.
pub struct Slice {
    /// None where a formula has no meaning (m = 0, a layer value outside its range).
    asked: Option<u128>,
    capacity: u128,
    /// Asked by start and stop alone, whatever the lists hold.
    by_ends: bool,
}

const LONGER: u128 = 3;

/// "in 25 lent bytes or more (fewer is 7)".
const TEXT: usize = 25;

fn slice(asked: Option<u128>, capacity: usize) -> Slice {
    Slice { asked, capacity: capacity as u128, by_ends: false }
}

/// "B = max(1, 2*floor((n-1)/m)-1)"; with a closed end "max(1, 2*floor(n/m)-1)".
fn most_nodes(n: usize, shortest: Shortest) -> Option<u128> {
    let rows = n as i128 - i128::from(!shortest.closed);
    let floor = rows.checked_div_euclid(shortest.m as i128)?;
    Some((2 * floor - 1).max(1) as u128)
}

/// "T the layers' counts summed", "count = 2*ceil(f32(1/v)) - 1"; with draws "T is W".
fn most_stored(lists: &Lists) -> Option<u128> {
    let count = |v: &f64| {
        let inside = *v >= 1.0 / 4096.0 && *v < 1.0;
        inside.then(|| 2 * ((1.0 / v) as f32).ceil() as u128 - 1)
    };
    match lists.draws.is_empty() {
        true => lists.layers.iter().map(count).sum(),
        false => Some(lists.w as u128),
    }
}

/// What is asked of each slice, under the capacity of its array.
impl Capacities {
    /// What is asked by the ends of a segment, 0 where that is negative.
    fn by_ends(&self, asked: i128) -> Slice {
        Slice { by_ends: true, ..slice(Some(asked.max(0) as u128), self.curve) }
    }

    /// "stop-start-2m entries (0 if that is negative)"; with a closed end "stop-start-2m+1".
    pub(crate) fn candidates(&self, segment: &Segment) -> Slice {
        let Segment { start, stop, shortest: Shortest { m, closed }, .. } = *segment;
        self.by_ends(stop as i128 - start as i128 - 2 * m as i128 + i128::from(closed))
    }

    /// "L f64 (0 if start > stop)".
    pub(crate) fn predictions(&self, start: usize, stop: usize) -> Slice {
        self.by_ends(stop as i128 - start as i128)
    }

    pub(crate) fn curve(&self, length: usize) -> Slice {
        slice(Some(length as u128), self.curve)
    }

    /// "(n+1)*d f64 of room".
    pub(crate) fn sums(&self, matrix: &Matrix) -> Slice {
        slice(Some((matrix.n as u128 + 1) * matrix.d as u128), self.sums)
    }

    /// "n*n u32 and n f64 of room".
    pub(crate) fn ordering(&self, n: usize) -> [Slice; 2] {
        let (n, most) = (n as u128, self.rows);
        [slice(Some(n * n), most * most), slice(Some(n), most)]
    }

    /// T records.
    pub(crate) fn stored(&self, lists: &Lists) -> Slice {
        slice(most_stored(lists), self.records)
    }

    /// The text of an origin, whatever the answer.
    pub(crate) fn text(&self) -> Slice {
        slice(Some(TEXT as u128), TEXT)
    }

    /// "B nodes, T+B records, (B-1)/2 cuts", in the page's order: records, nodes, cuts.
    pub(crate) fn grown(&self, n: usize, shortest: Shortest, lists: &Lists) -> [Slice; 3] {
        let nodes = most_nodes(n, shortest);
        let records = nodes.and_then(|nodes| Some(most_stored(lists)? + nodes));
        let cuts = nodes.map(|nodes| (nodes - 1) / 2);
        [records, nodes, cuts].map(|asked| slice(asked, self.records))
    }
}

impl Slice {
    /// How many entries are asked; none where that has no meaning or passes the capacity.
    pub fn asked(&self) -> usize {
        self.asked.filter(|asked| *asked <= self.capacity).map_or(0, |asked| asked as usize)
    }

    /// How many entries are lent, `less` being what `short` says of this slice.
    pub(crate) fn lent(&self, less: Option<usize>) -> usize {
        let Some(asked) = self.asked else { return self.capacity as usize };
        let lent = match less {
            None if asked <= self.capacity => asked + LONGER,
            None => self.capacity,
            Some(less) => asked.saturating_sub(less as u128).min(self.capacity),
        };
        lent as usize
    }

    pub(crate) fn asks_more_than(&self, lent: usize) -> bool {
        self.asked.is_some_and(|asked| asked > lent as u128)
    }

    pub(crate) fn passes(&self) -> bool {
        !self.by_ends && self.asked.is_some_and(|asked| asked > self.capacity)
    }
}
