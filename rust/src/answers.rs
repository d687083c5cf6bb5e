//! What a call answers. None of these but [`Origin`] can be built or taken apart field by field outside this crate: a later field breaks
//! no caller.
use std::fmt;

/// A split and its gain.
#[derive(Clone, Copy, Debug, PartialEq)]
#[non_exhaustive]
pub struct Split {
    pub split: usize,
    pub gain: f64,
}

/// Where a record comes from. No choice depends on it.
#[derive(Clone, Copy, Debug, PartialEq, Eq)]
pub enum Origin {
    /// A segment's own search while the tree is grown.
    Direct,
    /// A layer: its place in the list, from 1.
    Layer(usize),
    /// A draw: its pair's place in the list, from 0. Pairs that leave no record are counted too.
    Draw(usize),
}

impl Origin {
    /// The origin that is told by a kind and a number, as the library tells it; nothing where none is told so.
    pub fn of(kind: usize, number: usize) -> Option<Origin> {
        match (kind, number) {
            (0, 0) => Some(Origin::Direct),
            (1, number) => Some(Origin::Layer(number)),
            (2, number) => Some(Origin::Draw(number)),
            _ => None,
        }
    }

    /// The origin that the library tells.
    pub(crate) fn told(kind: usize, number: usize) -> Origin {
        Origin::of(kind, number).expect("the library has three kinds")
    }
}

/// The text of the library: `direct`, `layer 3`, `draw 0`.
impl fmt::Display for Origin {
    fn fmt(&self, f: &mut fmt::Formatter) -> fmt::Result {
        match self {
            Origin::Direct => write!(f, "direct"),
            Origin::Layer(number) => write!(f, "layer {number}"),
            Origin::Draw(number) => write!(f, "draw {number}"),
        }
    }
}

/// The best split of `[start, stop)`, its gain, and where it comes from, by a kind and a number as the library tells it.
#[derive(Clone, Copy, Debug, Default, PartialEq)]
#[non_exhaustive]
#[repr(C)]
pub struct Record {
    pub start: usize,
    pub stop: usize,
    pub split: usize,
    pub gain: f64,
    pub kind: usize,
    pub number: usize,
}

impl Record {
    /// Where it comes from.
    pub fn origin(&self) -> Origin {
        Origin::told(self.kind, self.number)
    }
}

/// A segment of the tree: whether it is cut, its choice, and the places of its parts (0 and 0 where it is not cut).
#[derive(Clone, Copy, Debug, Default, PartialEq)]
#[non_exhaustive]
#[repr(C)]
pub struct Node {
    pub start: usize,
    pub stop: usize,
    pub significant: bool,
    has_choice: bool,
    choice: Record,
    pub left: usize,
    pub right: usize,
}

const _: () = assert!(std::mem::size_of::<Node>() == 88);

impl Node {
    /// The record that decides over the segment; it may carry the ends of a stored segment inside it.
    pub fn choice(&self) -> Option<Record> {
        self.has_choice.then_some(self.choice)
    }
}

/// How many nodes, records and cuts a tree has; of the records the first `stored` were there before it was grown.
#[derive(Clone, Copy, Debug, PartialEq, Eq)]
#[non_exhaustive]
pub struct Counts {
    pub nodes: usize,
    pub records: usize,
    pub cuts: usize,
    pub stored: usize,
}

/// The tree of a run: its nodes in preorder, the rows that are cut from left to right, and the records, of which the first `stored` were
/// there before it was grown.
#[derive(Clone, Debug, PartialEq)]
#[non_exhaustive]
pub struct Tree {
    pub nodes: Vec<Node>,
    pub cuts: Vec<usize>,
    pub records: Vec<Record>,
    pub stored: usize,
}

/// Why a row is on the sheet or is not: the segment `[start, stop)` that is cut at it; or the one that holds it and is not cut, with the
/// first of the other four that applies, so that each before it is false.
#[derive(Clone, Copy, Debug, PartialEq)]
pub enum Why {
    /// The segment is cut at the row, by a record of this origin, the text of which has `length` bytes.
    #[non_exhaustive]
    Cut { origin: Origin, length: usize, start: usize, stop: usize },
    /// The row is too near an end for a part of m rows.
    #[non_exhaustive]
    TooNear { start: usize, stop: usize },
    /// The row is barred: `a` and `b` are the first listed pair with a < row <= b.
    #[non_exhaustive]
    Barred { a: usize, b: usize, start: usize, stop: usize },
    /// The gain of cutting the segment at the row is no number.
    #[non_exhaustive]
    NoNumber { start: usize, stop: usize },
    /// That gain, which does not exceed the threshold.
    #[non_exhaustive]
    NotAbove { gain: f64, start: usize, stop: usize },
}

/// One to three guesses, ascending; with a closed end and no list a segment of two rows has its one candidate twice.
#[derive(Clone, Copy, Debug, PartialEq, Eq)]
pub struct Guesses {
    pub(crate) rows: [usize; 3],
    pub(crate) count: usize,
}

impl Guesses {
    pub fn rows(&self) -> &[usize] {
        &self.rows[..self.count.min(3)]
    }
}

/// What a permutation test found.
#[derive(Clone, Copy, Debug, PartialEq)]
#[non_exhaustive]
pub struct Tested {
    pub counter: usize,
    pub p_value: f64,
    pub significant: bool,
}
