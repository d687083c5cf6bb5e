//! The marked cases of document 01, through both forms of the functions.
use haspgarnet_changeforest::{
    lent, owned, Curves, Matrix, Origin, Permutations, Record, Refusal, Segments, Settings, Why,
};

mod common;
use common::{choice, column, place, with_m};

fn ends(record: &Record) -> (usize, usize) {
    (record.start, record.stop)
}

#[test]
fn candidates() {
    let barred = |forbidden| Settings { forbidden: Some(forbidden), ..with_m(3) };
    assert_eq!(owned::split_candidates(10, 0..10, &with_m(3)).unwrap(), [3, 4, 5, 6]);
    assert_eq!(owned::split_candidates(10, 0..10, &with_m(5)).unwrap_err().number(), 9);
    assert_eq!(owned::split_candidates(9, 0..9, &with_m(4)).unwrap(), [4]);
    assert_eq!(owned::split_candidates(10, 0..10, &barred(&[3, 5])).unwrap(), [3, 6]);
    assert_eq!(owned::split_candidates(10, 0..10, &barred(&[0, 9])).unwrap_err().number(), 10);
}

#[test]
fn only_told_entries_are_written() {
    let mut rows = [77; 8];
    let settings = Settings { forbidden: Some(&[3, 5]), ..with_m(3) };
    assert_eq!(lent::split_candidates(10, 0..10, &settings, &mut rows), Ok(2));
    assert_eq!(rows, [3, 6, 77, 77, 77, 77, 77, 77]);
}

#[test]
fn the_first_of_equal_gains_wins() {
    let readings = column(&[0.0, 0.0, 8.0, 0.0, 0.0]);
    let gain = 256.0 / 30.0;
    assert_eq!(owned::gain(readings, 0..5, 2), Ok(gain));
    assert_eq!(owned::gain(readings, 0..5, 3), Ok(gain));
    assert_eq!(place(owned::find_best_split(readings, 0..5, &with_m(1)).unwrap()), (2, gain));
    let mut sums = [7.5; 7];
    lent::gain(readings, 0..5, 2, &mut sums).unwrap();
    assert_eq!(sums, [0.0, 0.0, 0.0, 8.0, 8.0, 8.0, 7.5]);
}

#[test]
fn the_whole_case() {
    let readings = column(&[0.0, 0.0, 0.0, 0.0, 8.0, 8.0, 8.0, 8.0]);
    let settings = Settings { threshold: 10.0, ..with_m(1) };
    let tree = owned::tree(readings, &settings, Segments::None).unwrap();
    assert_eq!(tree.cuts, [4]);
    assert_eq!(tree.nodes.len(), 3);
    let whole = tree.nodes[0];
    assert_eq!((whole.start, whole.stop, whole.significant, whole.left, whole.right), (0, 8, true, 1, 2));
    assert_eq!(choice(&whole), Some((0, 8, 4, 128.0)));
    assert_eq!(tree.records.len(), 3);
    assert_eq!(tree.records[0], whole.choice().unwrap());
}

#[test]
fn the_most_nodes() {
    let everywhere = |n, m| {
        let settings = Settings { threshold: -1.0, ..with_m(m) };
        owned::tree(column(&vec![0.0; n]), &settings, Segments::None).unwrap()
    };
    let tree = everywhere(5, 1);
    assert_eq!((tree.cuts, tree.nodes.len()), (vec![1, 2, 3], 7));
    assert_eq!(tree.nodes[1].choice(), None);
    for (n, m) in [(1, 1), (2, 2), (100, 7), (4096, 1)] {
        let most = (2 * ((n - 1) / m)).max(2) - 1;
        assert_eq!(everywhere(n, m).nodes.len(), most);
    }
}

#[test]
fn a_choice_may_be_a_seeded_segments() {
    let layered = |readings, threshold| {
        owned::tree(readings, &Settings { threshold, ..with_m(1) }, Segments::Layers(&[0.5])).unwrap()
    };
    let tree = layered(column(&[0.0; 20]), 0.0);
    assert_eq!((tree.nodes.len(), tree.records.len(), tree.stored), (1, 4, 3));
    let mut bump = [0.0; 20];
    bump[5..10].fill(8.0);
    let tree = layered(column(&bump), 10.0);
    assert_eq!(tree.cuts, [5, 10]);
    assert_eq!(choice(&tree.nodes[0]), Some((0, 10, 5, 160.0)));
}

#[test]
fn neighbours() {
    let readings = column(&[0.0, 1.0, 3.0, 7.0]);
    assert_eq!(owned::predict(readings, 0..4, 2).unwrap(), [0.5, 0.5, 0.0, 0.5]);
    let ordering = owned::ordering(readings).unwrap();
    assert_eq!(ordering, [0, 1, 2, 3, 1, 0, 2, 3, 2, 1, 0, 3, 3, 2, 1, 0]);
}

#[test]
fn no_row_is_its_own_neighbour() {
    let equal = column(&[5.0, 5.0, 9.0]);
    assert_eq!(owned::ordering(equal).unwrap(), [0, 1, 2, 0, 1, 2, 2, 0, 1]);
    assert_eq!(owned::predict(equal, 0..3, 1).unwrap(), [1.0, 0.0, 0.0]);
    // The square of 1e-200 is 0.
    assert_eq!(owned::predict(column(&[1e-200, 0.0, 9.0]), 0..3, 1).unwrap(), [1.0, 0.0, 0.0]);
    // The lower of the equal rows is outside the segment.
    assert_eq!(owned::predict(column(&[5.0, 5.0, 9.0, 6.0]), 1..4, 2).unwrap(), [1.0, 1.0, 0.0]);
}

#[test]
fn permutations() {
    let curves = Curves { deltas: [&[1.0, 0.0, -1.0], &[], &[]], count: 1, ..Curves::default() };
    let three = Permutations { entries: &[2, 1, 0, 0, 1, 2, 1, 0, 2], count: 3 };
    let tested = |alpha| lent::permutation_test(curves, three, 1.0, &Settings { alpha, ..with_m(1) }).unwrap();
    let strict = tested(0.05);
    assert_eq!((strict.counter, strict.p_value, strict.significant), (3, 0.75, false));
    assert!(tested(0.8).significant);
}

#[test]
fn layers() {
    let seeded = |v| -> Vec<(usize, usize)> {
        let stored = owned::stored_segments(column(&[0.0; 20]), &with_m(1), Segments::Layers(&[v]));
        stored.unwrap().iter().map(ends).collect()
    };
    assert_eq!(seeded(0.5), [(0, 10), (5, 15), (10, 20)]);
    assert_eq!(seeded(0.25), [0, 2, 5, 7, 10, 12, 15].map(|a| (a, a + 5)));
}

#[test]
fn room_is_enough_for_every_layer() {
    for k in 1..4096 {
        let v = k as f64 / 4096.0;
        assert!(owned::stored_segments(column(&[0.0]), &with_m(1), Segments::Layers(&[v])).is_ok(), "{v}");
    }
}

#[test]
fn lengths() {
    assert_eq!(lent::minimal_segment_length(0.07, 100), Ok(8));
    assert_eq!(lent::nearest_f32(0.1), 0.1f32);
    assert_eq!(lent::nearest_f32(1e300), f32::INFINITY);
}

#[test]
fn curves_and_picks() {
    assert_eq!(owned::gain_from_likelihoods(&[3.0, 1.0, 0.0], &[1.0, 1.0, 2.0]).unwrap(), [4.0, 6.0, 6.0]);
    let curve = [9.0, f64::NAN, 4.0, 4.0, f64::INFINITY];
    assert_eq!(place(lent::pick(&curve, 5, 0..5, 3, &with_m(1)).unwrap()), (2, 4.0));
}

#[test]
fn an_empty_list_is_not_none() {
    let listed = |m| Settings { forbidden: Some(&[]), ..with_m(m) };
    assert_eq!(lent::guesses(20, 0..20, &with_m(1)).unwrap().rows(), [5, 10, 15]);
    assert_eq!(lent::guesses(20, 0..20, &listed(1)).unwrap().rows(), [5, 10, 14]);
    assert_eq!(lent::guesses(20, 0..5, &listed(2)).unwrap().rows(), [2]);
}

#[test]
fn to_the_others_an_empty_list_is_none() {
    let listed = Settings { forbidden: Some(&[]), threshold: -1.0, ..with_m(1) };
    let unlisted = Settings { forbidden: None, ..listed };
    let readings = column(&[0.0, 0.0, 8.0, 0.0, 0.0]);
    assert_eq!(owned::split_candidates(5, 0..5, &listed), owned::split_candidates(5, 0..5, &unlisted));
    assert_eq!(owned::find_best_split(readings, 1..5, &listed), owned::find_best_split(readings, 1..5, &unlisted));
    let tree = |settings| owned::tree(readings, settings, Segments::Layers(&[0.5]));
    assert_eq!(tree(&listed), tree(&unlisted));
    let pick = |settings| lent::pick(readings.cells, 5, 0..5, 1, settings);
    assert_eq!(pick(&listed), pick(&unlisted));
}

/// The code of docs/EMBEDDING.md, over the readings of embedding/example.c.
#[test]
fn the_page() -> Result<(), Refusal> {
    let cells = [
        3.0, 10.0, 4.0, 10.0, 3.0, 11.0, 4.0, 10.0, 3.0, 10.0, 9.0, 10.0, //
        8.0, 10.0, 9.0, 11.0, 8.0, 10.0, 4.0, 10.0, 3.0, 11.0, 4.0, 10.0,
    ];
    let readings = Matrix { cells: &cells, rows: 12, columns: 2 };
    let settings = Settings { m: 2, threshold: 10.0, forbidden: Some(&[2, 3]), ..Settings::default() };
    let sheet = owned::tree(readings, &settings, Segments::Layers(&[0.5]))?.cuts;
    assert_eq!(sheet, [5, 9]);
    let why = owned::why(readings, &settings, Segments::Layers(&[0.5]), 7)?;
    assert!(matches!(why, Why::TooNear { start: 5, stop: 9, .. }));
    let cut = |row| owned::why(readings, &settings, Segments::Layers(&[0.5]), row);
    assert!(matches!(cut(5)?, Why::Cut { origin: Origin::Layer(1), start: 0, stop: 12, .. }));
    assert!(matches!(cut(9)?, Why::Cut { origin: Origin::Direct, start: 5, stop: 12, .. }));
    Ok(())
}
