//! `feed`, `lot` and `close`, while the deck feeds, and `fedtree`, the later sheet.

use crate::text::{all, values};
use crate::{Capacities, Fields, Grown, Kind, Matrix, Slice, Stored, Tree, Wild};

/// n rows of d columns, and how many of their cells were taken.
#[derive(Clone, Copy)]
pub struct State {
    pub n: usize,
    pub d: usize,
    pub count: usize,
}

impl State {
    /// N D COUNT
    fn read(fields: &mut Fields) -> Option<State> {
        let (n, d) = fields.size()?;
        Some(State { n, d, count: fields.number()? })
    }
}

/// A lot, or the word `close` in its place.
pub enum Step {
    Lot(Vec<f64>),
    Close,
}

impl Step {
    pub fn cells(&self) -> &[f64] {
        match self {
            Step::Lot(cells) => cells,
            Step::Close => &[],
        }
    }
}

/// How a step is answered: the count of cells taken so far, or the number of its refusal.
pub type Taken = Result<usize, usize>;

fn taken(answer: Taken) -> String {
    answer.map_or_else(|number| format!("refused:{number}"), |count| count.to_string())
}

/// A run that is opened in this room, handed these lots and closed.
pub struct Feed {
    pub n: usize,
    pub d: usize,
    pub sums: Vec<f64>,
    pub steps: Vec<Step>,
}

impl Kind for Feed {
    /// N D SUMS K LOT..
    fn read(fields: &mut Fields) -> Option<Self> {
        let (n, d) = fields.size()?;
        Some(Feed { n, d, sums: fields.sums()?, steps: fields.steps()? })
    }
}

impl Feed {
    /// Of the steps, of closing in the end, and the room.
    pub fn answer(steps: &[Taken], closing: Taken, sums: &[f64]) -> String {
        format!("{} close {} sums{}", all(steps, taken), taken(closing), values(sums))
    }
}

pub struct Lot {
    pub state: State,
    pub sums: Vec<f64>,
    pub cells: Vec<f64>,
}

impl Kind for Lot {
    /// N D COUNT SUMS LOT
    fn read(fields: &mut Fields) -> Option<Self> {
        let state = State::read(fields)?;
        Some(Lot { state, sums: fields.sums()?, cells: fields.cells()? })
    }
}

impl Lot {
    pub fn answer(count: usize, sums: &[f64]) -> String {
        format!(" {count} sums{}", values(sums))
    }
}

pub struct Close {
    pub state: State,
}

impl Kind for Close {
    /// N D COUNT
    fn read(fields: &mut Fields) -> Option<Self> {
        Some(Close { state: State::read(fields)? })
    }
}

impl Close {
    pub fn answer(count: usize) -> String {
        format!(" {count}")
    }
}

/// The tree that is asked for, whose matrix has no cells; the count of those taken, and sums for them.
pub struct FedTree {
    pub tree: Tree,
    pub count: usize,
    pub sums: Vec<f64>,
}

impl Kind for FedTree {
    /// N D COUNT M THRESHOLD F LAYERS DRAWS W SUMS
    fn read(fields: &mut Fields) -> Option<Self> {
        let State { n, d, count } = State::read(fields)?;
        let (shortest, threshold) = (fields.shortest()?, fields.value()?);
        let (forbidden, lists) = (fields.forbidden()?, fields.lists()?);
        let stored = Stored { matrix: Matrix { n, d, cells: vec![] }, shortest, forbidden, lists };
        Some(FedTree { tree: Tree { stored, threshold }, count, sums: fields.sums()? })
    }

    /// Records, nodes, cuts. The sums are lent as the line has them.
    fn lends(&self, capacities: &Capacities) -> Vec<Slice> {
        let Stored { matrix, shortest, lists, .. } = &self.tree.stored;
        capacities.grown(matrix.n, *shortest, lists).into()
    }
}

impl FedTree {
    pub fn answer(grown: &Grown) -> String {
        Wild::answer(grown)
    }

    pub fn state(&self) -> State {
        let Matrix { n, d, .. } = self.tree.stored.matrix;
        State { n, d, count: self.count }
    }

    /// The sums of the run's rows, where there are as many.
    pub fn run_sums(&self) -> Option<&[f64]> {
        let State { n, d, .. } = self.state();
        self.sums.get(..n.checked_add(1)?.checked_mul(d)?)
    }

    /// A matrix that may have these sums. There need not be one: who takes it works out the sums it has.
    pub fn matrix(&self) -> Option<Matrix> {
        let (State { n, d, .. }, sums) = (self.state(), self.run_sums()?);
        let cells = sums.iter().zip(&sums[d..]).map(|(before, after)| cell(*before, *after));
        Some(Matrix { n, d, cells: cells.collect() })
    }
}

/// What is added from one sum to the next: their difference, or a value beside it where that is rounded,
/// and what leads to infinity or stays there.
fn cell(before: f64, after: f64) -> f64 {
    let near = match after.is_infinite() {
        true if before == after => 0.0,
        true => f64::MAX.copysign(after),
        false => after - before,
    };
    let adds_up = |cell: &f64| cell + before == after;
    [near, near.next_up(), near.next_down()].into_iter().find(adds_up).unwrap_or(near)
}
