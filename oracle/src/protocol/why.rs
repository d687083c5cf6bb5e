//! `why`: why a row is on the sheet or is not.

use crate::text::bits;
use crate::{Capacities, Fields, Kind, Slice, Tree};

/// A row, and the tree that is asked about it.
pub struct Why {
    pub tree: Tree,
    pub row: usize,
}

impl Kind for Why {
    /// N D M THRESHOLD F LAYERS DRAWS W ROW CELLS
    fn read(fields: &mut Fields) -> Option<Self> {
        let mut row = 0;
        let tree = Tree::with(fields, |fields| {
            let lists = fields.lists()?;
            row = fields.number()?;
            Some(lists)
        })?;
        Some(Why { tree, row })
    }

    /// Sums, records, text; no nodes and no cuts.
    fn lends(&self, capacities: &Capacities) -> Vec<Slice> {
        let stored = self.tree.stored.lends(capacities);
        stored.into_iter().chain([capacities.text()]).collect()
    }
}

pub enum Reason {
    /// The text of the choice's origin.
    Cut(String),
    Near,
    /// The first listed pair that bars the row.
    Barred(usize, usize),
    Nan,
    /// The gain, which doesn't exceed the threshold.
    Below(f64),
}

/// A reason, and the ends of the segment that it is told of.
pub struct Told {
    pub reason: Reason,
    pub start: usize,
    pub stop: usize,
}

impl Told {
    /// The reason's word, what goes with it, the ends, and of a cut its text.
    pub fn words(&self) -> Vec<String> {
        let (word, with, text) = match &self.reason {
            Reason::Cut(text) => ("cut", vec![], Some(text.clone())),
            Reason::Near => ("near", vec![], None),
            Reason::Barred(a, b) => ("barred", vec![a.to_string(), b.to_string()], None),
            Reason::Nan => ("nan", vec![], None),
            Reason::Below(gain) => ("below", vec![bits(*gain)], None),
        };
        let ends = [self.start, self.stop].map(|end| end.to_string());
        [word.into()].into_iter().chain(with).chain(ends).chain(text).collect()
    }
}

impl Why {
    pub fn answer(told: &Told) -> String {
        format!(" {}", told.words().join(" "))
    }
}
