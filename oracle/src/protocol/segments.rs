//! `stored`, and the records that it, `tree` and `wild` tell.

use crate::text::{all, bits};
use crate::{Capacities, Fields, Forbidden, Kind, Matrix, Origin, Shortest, Slice};

/// What is searched before a tree is grown: the segments of layers, or those drawn, flat pairs, until W
/// records stand.
#[derive(Default)]
pub struct Lists {
    pub layers: Vec<f64>,
    pub draws: Vec<usize>,
    pub w: usize,
}

pub struct Stored {
    pub matrix: Matrix,
    pub shortest: Shortest,
    pub forbidden: Forbidden,
    pub lists: Lists,
}

impl Stored {
    /// F, the lists that the kind takes, CELLS.
    pub(crate) fn after_m<'a>(
        fields: &mut Fields<'a>,
        size: (usize, usize),
        shortest: Shortest,
        lists: impl FnOnce(&mut Fields<'a>) -> Option<Lists>,
    ) -> Option<Self> {
        let (forbidden, lists) = (fields.forbidden()?, lists(fields)?);
        Some(Stored { matrix: fields.matrix(size)?, shortest, forbidden, lists })
    }
}

impl Kind for Stored {
    /// N D M F LAYERS DRAWS W CELLS, without the prefix `closed`.
    fn read(fields: &mut Fields) -> Option<Self> {
        let (size, m) = (fields.size()?, fields.number()?);
        Stored::after_m(fields, size, Shortest { m, closed: false }, Fields::lists)
    }

    /// Sums, records.
    fn lends(&self, capacities: &Capacities) -> Vec<Slice> {
        vec![capacities.sums(&self.matrix), capacities.stored(&self.lists)]
    }
}

#[derive(Clone, Copy)]
pub struct Record {
    pub start: usize,
    pub stop: usize,
    pub split: usize,
    pub gain: f64,
    pub origin: Origin,
}

impl Stored {
    pub fn answer(records: &[Record]) -> String {
        counted(records)
    }
}

/// How many records, and each.
pub(crate) fn counted(records: &[Record]) -> String {
    let record = |r: Record| {
        let (gain, origin) = (bits(r.gain), r.origin.word());
        format!("{},{},{},{gain},{origin}", r.start, r.stop, r.split)
    };
    format!(" {}{}", records.len(), all(records, record))
}
