//! The lines of docs/REPLAY.md, for the oracle and for the program that it is compared with: a case
//! from its line, the room that it lends, the words of its answer. A kind of case has its struct in
//! one of these files and its row in the table below. Nothing here judges a case.

mod capacities;
mod curves;
mod feed;
mod fields;
mod lengths;
mod mean;
mod neighbours;
mod origin;
mod room;
mod segments;
mod text;
mod tree;
mod two_step;
mod why;

pub use capacities::Capacities;
pub use curves::{Curve, Perm};
pub use feed::{Close, FedTree, Feed, Lot, State, Step, Taken};
pub use fields::{value, Fields};
pub use lengths::{Rel, F32};
pub use mean::{Cand, Forbidden, Gain, Matrix, Search, Segment, Shortest};
pub use neighbours::{Knn, Order};
pub use origin::Origin;
pub use room::Slice;
pub use segments::{Lists, Record, Stored};
pub use text::{bits, same};
pub use tree::{Grown, Node, Tree, Wild};
pub use two_step::{Guesses, Pick};
pub use why::{Reason, Told, Why};

use room::Short;

/// A kind of case.
pub trait Kind: Sized {
    /// Reads the fields after the kind's word; nothing where they are not there. A kind that reads M by
    /// `shortest` takes the prefix `closed`, and no other does.
    fn read(fields: &mut Fields) -> Option<Self>;

    /// The slices that it lends, in the page's order.
    fn lends(&self, _: &Capacities) -> Vec<Slice> {
        vec![]
    }
}

macro_rules! kinds {
    ($($word:literal $kind:ident,)*) => {
        pub enum Case {
            $($kind($kind),)*
        }

        impl Case {
            fn read(word: &[u8], fields: &mut Fields) -> Option<Case> {
                match word {
                    $($word => $kind::read(fields).map(Case::$kind),)*
                    _ => None,
                }
            }

            fn lends(&self, capacities: &Capacities) -> Vec<Slice> {
                match self {
                    $(Case::$kind(case) => case.lends(capacities),)*
                }
            }
        }
    };
}

kinds! {
    b"rel" Rel,
    b"f32" F32,
    b"cand" Cand,
    b"gain" Gain,
    b"search" Search,
    b"stored" Stored,
    b"tree" Tree,
    b"wild" Wild,
    b"why" Why,
    b"feed" Feed,
    b"lot" Lot,
    b"close" Close,
    b"fedtree" FedTree,
    b"order" Order,
    b"knn" Knn,
    b"curve" Curve,
    b"pick" Pick,
    b"guesses" Guesses,
    b"perm" Perm,
}

/// A line that is a case.
pub struct Line {
    pub case: Case,
    /// Whether a list passes its capacity.
    pub too_large: bool,
    slices: Vec<Slice>,
    short: Option<Short>,
}

impl Line {
    /// The case of a line, or nothing if the line is no case.
    pub fn read(line: &[u8], capacities: Capacities) -> Option<Line> {
        let words = line.strip_suffix(b"\n").filter(|_| line.len() <= capacities.line)?;
        let mut fields = Fields::of(words, capacities);
        let mut short = None;
        if fields.next_is(b"short") {
            short = Some(Short { slice: fields.number()?, less: fields.number()? });
        }
        fields.closed();
        let case = Case::read(fields.word()?, &mut fields)?;
        let slices = case.lends(&capacities);
        let named = short.is_none_or(|short| (1..=slices.len()).contains(&short.slice));
        let too_large = fields.passed();
        (fields.at_end() && named).then_some(Line { case, too_large, slices, short })
    }

    /// How many entries of slice number `number`, counted from 1, are lent.
    pub fn lent(&self, number: usize) -> usize {
        let short = self.short.filter(|short| short.slice == number);
        self.slices[number - 1].lent(short.map(|short| short.less))
    }

    /// Whether a slice is lent shorter than is asked.
    pub fn lends_too_little(&self) -> bool {
        let mut numbered = self.slices.iter().zip(1..);
        numbered.any(|(slice, number)| slice.asks_more_than(self.lent(number)))
    }

    /// Whether a slice asks for more than its capacity, so that an admitted case is too large.
    pub fn asks_too_much(&self) -> bool {
        self.slices.iter().any(Slice::passes)
    }
}
