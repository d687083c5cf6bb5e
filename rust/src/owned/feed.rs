//! A run that is fed its cells in lots.
use super::{sums_room, Room};
use crate::{lent, Lists, Matrix, Refusal, Segments, Settings, State, Tree};

/// A run while its deck feeds, with sums of its own: so each call finds them as the last one left them, and however the cells are cut up
/// the sums and the tree are those of the whole matrix.
///
/// ```
/// use haspgarnet_changeforest::{owned::Feed, Segments, Settings};
///
/// let mut feed = Feed::open(4, 2)?;
/// feed.lot(&[3.0, 10.0, 4.0])?;
/// assert_eq!(feed.lot(&[f64::NAN, 9.0]).unwrap_err().number(), 4);
/// assert_eq!(feed.lot(&[10.0, 9.0, 10.0, 8.0, 10.0])?, 8);
/// feed.close()?;
/// let settings = Settings { m: 1, threshold: 10.0, ..Settings::default() };
/// assert_eq!(feed.tree(&settings, Segments::None)?.cuts, [2]);
/// # Ok::<(), haspgarnet_changeforest::Refusal>(())
/// ```
#[derive(Clone, Debug)]
pub struct Feed {
    state: State,
    sums: Vec<f64>,
}

impl Feed {
    /// A run of which no cell is taken. Refusals: 1.
    pub fn open(rows: usize, columns: usize) -> Result<Feed, Refusal> {
        let mut sums = sums_room(Matrix { rows, columns, ..Matrix::default() });
        let state = lent::open(rows, columns, &mut sums)?;
        Ok(Feed { state, sums })
    }

    /// Takes the next cells, row after row; the lot may end anywhere in a row or be empty. How many cells were taken so far. A lot that is
    /// refused takes nothing, and the run may go on. Refusals: 4, 13.
    pub fn lot(&mut self, cells: &[f64]) -> Result<usize, Refusal> {
        self.state = lent::feed(cells, self.state, &mut self.sums)?;
        Ok(self.count())
    }

    /// Whether all cells of the run were taken. A run that is closed too early is open as before. Refusals: 14.
    pub fn close(&self) -> Result<(), Refusal> {
        lent::close(self.state)
    }

    /// How many cells were taken so far.
    pub fn count(&self) -> usize {
        self.state.count
    }

    /// The prefix sums of the cells so far, behind a row of zeros.
    pub fn sums(&self) -> &[f64] {
        &self.sums[..self.state.columns + self.state.count]
    }

    /// The tree of the run, over the records of the segments, as [`tree`](super::tree) answers it for the whole matrix. Reads m, closed,
    /// threshold and forbidden. Refusals: 2, 3 (threshold), 5, 6, 8 (draws), 14.
    pub fn tree(&self, settings: &Settings, segments: Segments) -> Result<Tree, Refusal> {
        let lists = Lists::from(segments);
        let mut room = Room::of(self.state.rows, settings, lists);
        let counts = lent::fed_tree(&self.sums, self.state, settings, lists, room.lend())?;
        Ok(room.tree(counts))
    }
}
