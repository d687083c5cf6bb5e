use crate::lent::Found;
use crate::mean::{as_gain_leaves, matrix};
use crate::outcome::agree;
use crate::segments::{lists, segments};
use crate::tree::{all_known, answer, cutting, owned_answer, Room};
use crate::{Call, Outcome};
use haspgarnet_changeforest::{lent, owned, Counts, Refusal, State};
use protocol::{
    same, Capacities, Close, FedTree, Feed, Grown, Kind, Line, Lists, Lot, Matrix, Shortest, Slice,
    Step, Stored, Taken, Tree,
};
use std::ops::Range;

fn state(state: protocol::State) -> State {
    State { rows: state.n, columns: state.d, count: state.count }
}

fn taken(count: Result<usize, Refusal>) -> Taken {
    count.map_err(|why| why.number() as usize)
}

/// The sums that a lot of so many cells changes.
fn changed(before: State, cells: usize) -> Range<usize> {
    let first = before.columns.saturating_add(before.count);
    first..first.saturating_add(cells)
}

/// A run over lent sums, beside it one with sums of its own, and the cells that were taken.
struct Run {
    state: State,
    sums: Found,
    owned: owned::Feed,
    cells: Vec<f64>,
    kept: bool,
    agrees: bool,
}

impl Run {
    fn step(&mut self, step: &Step) -> Taken {
        let before = self.state;
        let (after, owned) = match step {
            Step::Lot(cells) => {
                (lent::feed(cells, before, self.sums.slice()), self.owned.lot(cells))
            }
            Step::Close => {
                let closed = self.owned.close().map(|()| self.owned.count());
                (lent::close(before).map(|()| before), closed)
            }
        };
        let told = if after.is_ok() { step.cells() } else { &[] };
        self.cells.extend(told);
        self.kept &= self.sums.kept_but(changed(before, told.len()));
        self.state = after.unwrap_or(before);
        let count = after.map(|after| after.count);
        self.agrees &= count == owned && self.owned.count() == self.state.count;
        taken(count)
    }

    /// Whether both have the same sums so far.
    fn is_alike(&self) -> bool {
        let own = self.owned.sums();
        self.sums.sums().get(..own.len()).is_some_and(|lent| same(lent, own))
    }

    /// Whether both have the sums and the later sheet of the matrix that the cells make.
    fn is_of_matrix(&self) -> bool {
        let case = sheet(self.state, self.sums.sums());
        let Matrix { n, d, .. } = case.tree.stored.matrix;
        let cells = Matrix { n, d, cells: self.cells.clone() };
        let (readings, settings) = (matrix(&cells), cutting(&case.tree));
        let segments = segments(&case.tree.stored).unwrap_or_default();
        let tree = owned::tree(readings, &settings, segments).map(owned_answer);
        as_gain_leaves(readings, self.owned.sums())
            && tree == self.owned.tree(&settings, segments).map(owned_answer)
            && tree == answer(&grown_apart(&case))
    }
}

/// A later sheet of a run, of few cuts whatever its rows.
fn sheet(State { rows: n, columns: d, count }: State, sums: &[f64]) -> FedTree {
    let (matrix, m) = (Matrix { n, d, cells: vec![] }, n.div_ceil(8));
    let (layers, shortest) = (vec![0.5], Shortest { m, closed: false });
    let lists = Lists { layers, ..Lists::default() };
    let stored = Stored { matrix, shortest, forbidden: None, lists };
    FedTree { tree: Tree { stored, threshold: 0.0 }, count, sums: sums.to_vec() }
}

impl Call for Feed {
    fn call(&self, _: &Line) -> Outcome {
        let mut sums = Found::of(&self.sums);
        let opened = lent::open(self.n, self.d, sums.slice());
        let kept = sums.kept_but(0..opened.map_or(0, |_| self.d));
        let own = owned::Feed::open(self.n, self.d);
        let own_count = own.as_ref().map(owned::Feed::count).map_err(|why| *why);
        let agrees = agree(opened.map(|opened| opened.count), own_count);
        let (state, owned) = match (opened, own) {
            (Ok(state), Ok(owned)) => (state, owned),
            (opened, _) => return Outcome { kept, agrees, told: opened.map(|_| String::new()) },
        };
        let mut run = Run { state, sums, owned, cells: vec![], kept, agrees };
        let steps: Vec<Taken> = self.steps.iter().map(|step| run.step(step)).collect();
        let closing = run.step(&Step::Close);
        let agrees = run.is_alike() && (closing.is_err() || run.is_of_matrix());
        Outcome {
            kept: run.kept,
            agrees: run.agrees && agrees,
            told: Ok(Feed::answer(&steps, closing, run.sums.sums())),
        }
    }
}

impl Call for Lot {
    fn call(&self, _: &Line) -> Outcome {
        let (before, mut sums) = (state(self.state), Found::of(&self.sums));
        let after = lent::feed(&self.cells, before, sums.slice());
        let told = after.map_or(0, |_| self.cells.len());
        Outcome {
            kept: sums.kept_but(changed(before, told)),
            agrees: true,
            told: after.map(|after| Lot::answer(after.count, sums.sums())),
        }
    }
}

impl Call for Close {
    fn call(&self, _: &Line) -> Outcome {
        let state = state(self.state);
        Outcome::plain(lent::close(state).map(|()| Close::answer(state.count)))
    }
}

/// The lent call over sums that are lent, in this room.
fn grow(case: &FedTree, sums: &[f64], room: &mut Room) -> Result<Counts, Refusal> {
    let (settings, lists) = (cutting(&case.tree), lists(&case.tree.stored));
    lent::fed_tree(sums, state(case.state()), &settings, lists, room.lend())
}

/// That in room of its own, as long as is asked.
fn grown_apart(case: &FedTree) -> Result<Grown, Refusal> {
    let slices = case.lends(&Capacities::WIDE);
    let mut room = Room::of([0, 1, 2].map(|place| Slice::asked(&slices[place])));
    grow(case, &case.sums, &mut room).map(|counts| room.grown(counts))
}

/// Where a matrix has the sums that are lent, as `gain` leaves them: whether a run with sums of its own has
/// the same tree, fed as many of the cells as the case says were taken, in lots that end in every column;
/// and the matrix, where that is all of them.
fn as_owned(case: &FedTree, lent: Result<String, Refusal>) -> bool {
    let (Some(cells), Some(segments)) = (case.matrix(), segments(&case.tree.stored)) else {
        return true;
    };
    let (readings, settings) = (matrix(&cells), cutting(&case.tree));
    let has_them = case.run_sums().is_some_and(|sums| as_gain_leaves(readings, sums));
    let Some(taken) = readings.cells.get(..case.count).filter(|_| has_them) else { return true };
    let Ok(mut feed) = owned::Feed::open(readings.rows, readings.columns) else { return false };
    let fed = taken.chunks(readings.columns + 1).all(|lot| feed.lot(lot).is_ok());
    let tree = feed.tree(&settings, segments).map(owned_answer);
    let whole = taken.len() == readings.cells.len();
    let of_matrix = || owned::tree(readings, &settings, segments).map(owned_answer);
    fed && agree(lent, tree.clone()) && (!whole || tree == of_matrix())
}

impl Call for FedTree {
    fn call(&self, line: &Line) -> Outcome {
        let mut sums = Found::of(&self.sums);
        let mut room = Room::of([1, 2, 3].map(|number| line.lent(number)));
        let counts = grow(self, sums.slice(), &mut room);
        let kept = sums.kept_but(0..0) && room.kept_past(counts.ok());
        let grown = counts.map(|counts| room.grown(counts));
        Outcome {
            kept: kept && all_known(&grown),
            agrees: as_owned(self, answer(&grown)),
            told: grown.map(|grown| FedTree::answer(&grown)),
        }
    }
}
