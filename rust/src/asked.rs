//! What a call is asked: the readings, or the state of a run that is fed them, the settings, the segments to store, the curves. Any values
//! are allowed here; the call judges them. A field that is not given has a default that changes nothing, or one that is refused where it
//! is read: so a later field breaks no caller who ends in `..Settings::default()`.

/// Readings, row after row. Judged by refusal 1: 1 to 4,096 rows (1,024 where neighbours are ordered), 1 to 64 columns, and
/// `rows * columns` cells.
#[derive(Clone, Copy, Debug, Default, PartialEq)]
pub struct Matrix<'a> {
    pub cells: &'a [f64],
    pub rows: usize,
    pub columns: usize,
}

/// Where a run stands while its deck feeds: `rows` rows of `columns` columns, and how many of their cells were taken, row after row. Each
/// call answers with the state that the next one is handed. Judged by refusals 1, 13 and 14.
#[derive(Clone, Copy, Debug, Default, PartialEq, Eq)]
pub struct State {
    pub rows: usize,
    pub columns: usize,
    pub count: usize,
}

/// How a run is searched. A call reads the fields that its own page names and looks at no other.
#[derive(Clone, Copy, Debug, PartialEq)]
pub struct Settings<'a> {
    /// The least length of a part, 1 to 4,096. It must be given: the default, 0, is refused by 2.
    pub m: usize,
    /// The closed end: whether the right part of a split may have exactly m rows, so that stop-m is a candidate. Off by default, and then
    /// it has more, as in the original changeforest.
    pub closed: bool,
    /// A segment is cut where its gain exceeds this. It must be given: the default, NaN, is refused by 3.
    pub threshold: f64,
    /// A share of permutations of at most this is significant; strictly between 0 and 1. It must be given: the default, NaN, is refused
    /// by 3.
    pub alpha: f64,
    /// Pairs a, b, one after another: the rows a < x <= b are barred. `None`, the default, is the same as an empty list, except to
    /// [`guesses`](crate::lent::guesses).
    pub forbidden: Option<&'a [usize]>,
}

impl Default for Settings<'_> {
    fn default() -> Self {
        Settings { m: 0, closed: false, threshold: f64::NAN, alpha: f64::NAN, forbidden: None }
    }
}

impl<'a> Settings<'a> {
    /// The forbidden list, for a call to which not given is empty.
    pub(crate) fn barred(&self) -> &'a [usize] {
        self.forbidden.unwrap_or(&[])
    }
}

/// Which segments are searched and stored before a tree is grown.
#[derive(Clone, Copy, Debug, Default, PartialEq)]
pub enum Segments<'a> {
    /// None: BS of the original changeforest.
    #[default]
    None,
    /// Those of layers, SBS there: the layers' values, at most 64, each in `[1/4096, 1)`.
    Layers(&'a [f64]),
    /// Those drawn, WBS there: `pairs` are start and stop of each, one after another, in whatever number. One with start >= stop is
    /// passed over; the others are searched in order, and those that answer are stored, until `most` records stand, at most 4,096, or
    /// there are no more. One with stop past the run is refused by 8, wherever it stands.
    Draws { pairs: &'a [usize], most: usize },
}

/// The same as two lists, as the library takes it: a run has layers or draws, and both are refused by 6. `most` goes with the draws;
/// where there are none it is judged and otherwise not looked at.
#[derive(Clone, Copy, Debug, Default, PartialEq)]
pub struct Lists<'a> {
    pub layers: &'a [f64],
    pub draws: &'a [usize],
    pub most: usize,
}

impl<'a> From<Segments<'a>> for Lists<'a> {
    fn from(segments: Segments<'a>) -> Self {
        match segments {
            Segments::None => Lists::default(),
            Segments::Layers(layers) => Lists { layers, ..Lists::default() },
            Segments::Draws { pairs, most } => Lists { draws: pairs, most, ..Lists::default() },
        }
    }
}

/// Up to three curves of deltas with their bases; of these the first `count` are looked at.
#[derive(Clone, Copy, Debug, Default, PartialEq)]
pub struct Curves<'a> {
    pub deltas: [&'a [f64]; 3],
    pub bases: [f64; 3],
    pub count: usize,
}

/// `count` permutations of the places of a curve, permutation after permutation.
#[derive(Clone, Copy, Debug, Default, PartialEq, Eq)]
pub struct Permutations<'a> {
    pub entries: &'a [usize],
    pub count: usize,
}
