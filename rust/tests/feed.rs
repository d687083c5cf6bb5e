//! Rows while the deck feeds: however the cells are cut up, sums and tree are those of the whole matrix; what is refused, and that the run
//! goes on; states and sums that no run has.
use haspgarnet_changeforest::lent::{self, FedRoom};
use haspgarnet_changeforest::owned::{self, Feed};
use haspgarnet_changeforest::{Lists, Matrix, Node, Refusal, Segments, Settings, State};

mod common;
use common::{number, with_m};

const ROWS: usize = 4;
const COLUMNS: usize = 2;
const CELLS: [f64; 8] = [0.1, 7.0, 0.2, 7.3, 0.3, -0.0, 8.0, 1e300];

const HUGE: usize = usize::MAX;
const BAD: [f64; 3] = [f64::NAN, f64::INFINITY, f64::NEG_INFINITY];

fn readings() -> Matrix<'static> {
    Matrix { cells: &CELLS, rows: ROWS, columns: COLUMNS }
}

fn state(count: usize) -> State {
    State { rows: ROWS, columns: COLUMNS, count }
}

fn settings() -> Settings<'static> {
    Settings { threshold: 0.0, ..with_m(1) }
}

/// The prefix sums that a whole call leaves.
fn sums() -> [f64; 10] {
    let mut sums = [7.5; 10];
    lent::gain(readings(), 0..4, 1, &mut sums).unwrap();
    sums
}

fn bits(values: &[f64]) -> Vec<u64> {
    values.iter().map(|value| value.to_bits()).collect()
}

/// Whether the run has the sums and the trees of the whole matrix.
fn is_whole(feed: &Feed) -> bool {
    let bars = Settings { forbidden: Some(&[1, 2]), closed: true, ..settings() };
    let draws = Segments::Draws { pairs: &[3, 1, 0, 3, 1, 4], most: 2 };
    let asked = [(settings(), Segments::None), (settings(), draws), (bars, Segments::Layers(&[0.75]))];
    let same = |(settings, segments)| feed.tree(&settings, segments) == owned::tree(readings(), &settings, segments);
    feed.close().is_ok() && bits(feed.sums()) == bits(&sums()) && asked.into_iter().all(same)
}

/// The cells, cut behind number i where bit i is set.
fn cut_up(cuts: u32) -> Vec<Vec<f64>> {
    let mut lots = vec![vec![]];
    for (number, cell) in CELLS.into_iter().enumerate() {
        lots.last_mut().unwrap().push(cell);
        if cuts >> number & 1 == 1 {
            lots.push(vec![]);
        }
    }
    lots
}

/// The last bit leaves an empty lot at the end.
#[test]
fn every_cutting_up_gives_the_whole() {
    for cuts in 0..1 << CELLS.len() {
        let mut feed = Feed::open(ROWS, COLUMNS).unwrap();
        let mut taken = 0;
        for lot in cut_up(cuts) {
            taken += lot.len();
            assert_eq!(feed.lot(&lot), Ok(taken));
            assert_eq!(bits(feed.sums()), bits(&sums()[..COLUMNS + taken]));
        }
        assert!(is_whole(&feed), "{cuts:b}");
    }
}

#[test]
fn empty_lots_change_nothing() {
    let mut feed = Feed::open(ROWS, COLUMNS).unwrap();
    for (taken, cell) in CELLS.iter().enumerate() {
        assert_eq!(feed.lot(&[]), Ok(taken));
        assert_eq!(feed.lot(&[*cell]), Ok(taken + 1));
    }
    assert_eq!(feed.lot(&[]), Ok(CELLS.len()));
    assert!(is_whole(&feed));
}

/// Before every cell lots with a bad one in each place, and one that is too long, with a bad cell too.
#[test]
fn a_refused_lot_takes_nothing() {
    let mut feed = Feed::open(ROWS, COLUMNS).unwrap();
    for (taken, cell) in CELLS.iter().enumerate() {
        for bad in BAD {
            for lot in [&[bad][..], &[bad, 1.0, 1.0], &[1.0, bad, 1.0], &[1.0, 1.0, bad]] {
                assert_eq!(feed.lot(lot).map_err(Refusal::number), Err(4));
            }
            assert_eq!(feed.lot(&[bad; 9]).map_err(Refusal::number), Err(4));
        }
        let too_long = vec![1.0; CELLS.len() - taken + 1];
        assert_eq!(feed.lot(&too_long).map_err(Refusal::number), Err(13));
        assert_eq!(feed.count(), taken);
        assert_eq!(feed.lot(&[*cell]), Ok(taken + 1));
    }
    assert_eq!(feed.lot(&[1.0]).map_err(Refusal::number), Err(13));
    assert!(is_whole(&feed));
}

#[test]
fn closing_early_leaves_the_run_open() {
    let mut feed = Feed::open(ROWS, COLUMNS).unwrap();
    for cell in CELLS {
        assert_eq!(number(feed.close()), 14);
        assert_eq!(number(feed.tree(&settings(), Segments::None)), 14);
        feed.lot(&[cell]).unwrap();
    }
    assert!(is_whole(&feed));
    assert!(is_whole(&feed.clone()));
}

/// Each before 14.
#[test]
fn the_tree_is_refused_as_ever() {
    let mut feed = Feed::open(ROWS, COLUMNS).unwrap();
    for taken in [0, CELLS.len()] {
        let refused = |settings, segments| number(feed.tree(&settings, segments));
        let none = Segments::None;
        assert_eq!(refused(Settings::default(), none), 2);
        assert_eq!(refused(with_m(1), none), 3);
        assert_eq!(refused(Settings { forbidden: Some(&[2, 1]), ..settings() }, none), 5);
        assert_eq!(refused(settings(), Segments::Layers(&[1.0])), 6);
        assert_eq!(refused(settings(), Segments::Draws { pairs: &[0, 5], most: 1 }), 8);
        assert_eq!(feed.count(), taken);
        feed.lot(&CELLS[taken..]).unwrap();
    }
}

#[test]
fn sizes() {
    for (rows, columns) in [(0, 1), (1, 0), (4097, 1), (1, 65), (HUGE, HUGE), (1 << 63, 2)] {
        assert_eq!(number(Feed::open(rows, columns)), 1);
        let state = State { rows, columns, count: 0 };
        assert_eq!(number(lent::open(rows, columns, &mut [])), 1);
        assert_eq!(number(lent::feed(&[f64::NAN], state, &mut [])), 1);
        assert_eq!(number(lent::close(state)), 1);
        assert_eq!(number(lent::fed_tree(&[], state, &Settings::default(), Lists::default(), FedRoom::default())), 1);
    }
    let mut feed = Feed::open(4096, 64).unwrap();
    assert_eq!(feed.lot(&vec![0.0; 4096 * 64]), Ok(4096 * 64));
    assert_eq!(feed.sums().len(), 4097 * 64);
}

/// A thread grows it: it has as many levels as a tree can have.
#[test]
fn a_deep_tree() {
    let mut feed = Feed::open(4096, 1).unwrap();
    feed.lot(&[0.0; 4096]).unwrap();
    let tree = feed.tree(&Settings { threshold: -1.0, ..with_m(1) }, Segments::None).unwrap();
    assert_eq!((tree.nodes.len(), tree.cuts.len()), (8189, 4094));
}

/// The room is asked from the first call on, and what lies behind it stays.
#[test]
fn room_for_the_whole_run() {
    let mut lent = [7.5; 12];
    assert_eq!(number(lent::open(ROWS, COLUMNS, &mut lent[..9])), 7);
    assert_eq!(lent, [7.5; 12]);
    let opened = lent::open(ROWS, COLUMNS, &mut lent).unwrap();
    assert_eq!((opened, lent), (state(0), [0.0, 0.0, 7.5, 7.5, 7.5, 7.5, 7.5, 7.5, 7.5, 7.5, 7.5, 7.5]));
    assert_eq!(number(lent::feed(&[1.0], opened, &mut lent[..9])), 7);
    assert_eq!(number(lent::feed(&[1.0; 9], opened, &mut lent[..9])), 7);
    assert_eq!(number(lent::feed(&BAD, opened, &mut lent[..9])), 4);
    assert_eq!(number(lent::feed(&[1.0; 9], opened, &mut lent)), 13);
    assert_eq!(lent::feed(&CELLS[..3], opened, &mut lent), Ok(state(3)));
    assert_eq!(bits(&lent[..5]), bits(&sums()[..5]));
    assert_eq!(lent[5..], [7.5; 7]);
    assert_eq!(lent::feed(&CELLS[3..], state(3), &mut lent[..10]), Ok(state(8)));
    assert_eq!(bits(&lent[..10]), bits(&sums()));
    assert_eq!(lent[10..], [7.5; 2]);
}

#[test]
fn states_that_no_run_has() {
    let mut lent = [7.5; 10];
    for count in [9, 10, HUGE - 1, HUGE] {
        assert_eq!(number(lent::feed(&[], state(count), &mut lent)), 13);
        assert_eq!(number(lent::feed(&[1.0; 3], state(count), &mut lent)), 13);
        assert_eq!(number(lent::feed(&BAD, state(count), &mut lent)), 4);
        assert_eq!(number(lent::close(state(count))), 13);
        assert_eq!(number(grown(&sums(), state(count), &settings(), Lists::default())), 13);
    }
    assert_eq!(lent, [7.5; 10]);
    assert_eq!(lent::feed(&[], state(8), &mut lent), Ok(state(8)));
    assert_eq!(lent, [7.5; 10]);
}

/// A lot behind three cells that nobody took: each sum from the one a row before.
#[test]
fn any_sums_are_added_to() {
    let mut lent = [7.5, 7.5, 7.5, f64::NAN, f64::INFINITY, 7.5, 7.5, 7.5, 7.5, 7.5];
    assert_eq!(lent::feed(&[1.0, 2.0, 3.0, 4.0], state(3), &mut lent), Ok(state(7)));
    assert!([3, 5, 7].into_iter().all(|place| lent[place].is_nan()));
    assert_eq!(lent[..3], [7.5; 3]);
    assert_eq!([lent[4], lent[6], lent[8], lent[9]], [f64::INFINITY, f64::INFINITY, f64::INFINITY, 7.5]);
}

/// The lent call in room of its own; what was lent to be read is as it was, and where it is refused what was lent to be written.
fn grown(sums: &[f64], state: State, settings: &Settings, lists: Lists) -> Result<Vec<usize>, Refusal> {
    let before = bits(sums);
    let (mut rows, mut gains, mut nodes, mut cuts) = ([77; 40], [7.5; 8], [Node::default(); 5], [77; 2]);
    let room = FedRoom { rows: &mut rows, gains: &mut gains, nodes: &mut nodes, cuts: &mut cuts };
    let counts = lent::fed_tree(sums, state, settings, lists, room);
    assert_eq!(bits(sums), before);
    if counts.is_err() {
        assert_eq!((rows, gains, nodes, cuts), ([77; 40], [7.5; 8], [Node::default(); 5], [77; 2]));
    }
    counts.map(|counts| cuts[..counts.cuts].to_vec())
}

#[test]
fn the_lent_tree_is_refused_in_number_order() {
    let (none, both) = (Lists::default(), Lists { layers: &[0.5], draws: &[0, 5], most: 1 });
    let past = Lists { layers: &[], ..both };
    let odd = Settings { forbidden: Some(&[1]), ..settings() };
    let refused = |sums: &[f64], state, settings, lists| number(grown(sums, state, &settings, lists));
    assert_eq!(refused(&[], State { columns: 0, ..state(9) }, Settings::default(), both), 1);
    assert_eq!(refused(&[], state(9), Settings::default(), both), 2);
    assert_eq!(refused(&[], state(9), Settings { threshold: f64::NAN, ..odd }, both), 3);
    assert_eq!(refused(&[], state(9), odd, both), 5);
    assert_eq!(refused(&[], state(9), settings(), both), 6);
    assert_eq!(refused(&sums()[..9], state(9), settings(), past), 7);
    assert_eq!(refused(&sums(), state(9), settings(), past), 8);
    assert_eq!(refused(&sums(), state(9), settings(), none), 13);
    assert_eq!(refused(&sums(), state(7), settings(), past), 8);
    assert_eq!(refused(&sums(), state(7), settings(), none), 14);
    let no_room = |room| number(lent::fed_tree(&sums(), state(9), &settings(), past, room));
    assert_eq!(no_room(FedRoom::default()), 7);
}

/// Those of 0, 0, 8, 8 in both columns, then with a NaN, then with nothing else; more may stand behind them.
#[test]
fn any_sums_have_a_tree() {
    let cuts = |sums: &[f64]| grown(sums, state(8), &settings(), Lists::default()).unwrap();
    let mut sums = [0.0, 0.0, 0.0, 0.0, 0.0, 0.0, 8.0, 8.0, 16.0, 16.0, f64::NAN];
    assert_eq!(cuts(&sums), [2]);
    sums[5] = f64::NAN;
    assert_eq!(cuts(&sums), [1]);
    assert_eq!(cuts(&[f64::NAN; 10]), []);
    assert_eq!(cuts(&[f64::INFINITY; 10]), []);
    sums[..10].fill(7.5);
    assert_eq!(cuts(&sums), []);
}
