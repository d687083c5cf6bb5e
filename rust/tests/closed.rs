//! The closed end: what it admits, and what is refused without it.
use haspgarnet_changeforest::lent::{self, TreeRoom};
use haspgarnet_changeforest::{owned, Curves, Lists, Node, Permutations, Segments, Settings};

mod common;
use common::{column, fields, number, place, with_m};

fn closed(m: usize) -> Settings<'static> {
    Settings { m, closed: true, ..Settings::default() }
}

/// M2 with the setting on.
#[test]
fn the_last_part_may_have_m_rows() {
    assert_eq!(owned::split_candidates(10, 0..10, &closed(5)).unwrap(), [5]);
    assert_eq!(number(owned::split_candidates(10, 0..10, &with_m(5))), 9);
    assert_eq!(owned::split_candidates(10, 2..10, &closed(3)).unwrap(), [5, 6, 7]);
    assert_eq!(owned::split_candidates(10, 2..10, &with_m(3)).unwrap(), [5, 6]);
}

#[test]
fn nine_is_given_where_the_range_is_empty() {
    assert_eq!(number(owned::split_candidates(9, 0..9, &closed(5))), 9);
    assert_eq!(number(owned::split_candidates(9, 4..4, &closed(1))), 9);
    assert_eq!(owned::split_candidates(11, 0..11, &closed(5)).unwrap(), [5, 6]);
    assert_eq!(owned::split_candidates(11, 0..11, &with_m(5)).unwrap(), [5]);
    let barred = Settings { forbidden: Some(&[4, 5]), ..closed(5) };
    assert_eq!(number(owned::split_candidates(10, 0..10, &barred)), 10);
    assert_eq!(number(owned::split_candidates(10, 0..10, &closed(0))), 2);
}

#[test]
fn candidates_ask_one_entry_more() {
    let mut rows = [77; 4];
    assert_eq!(number(lent::split_candidates(10, 0..10, &closed(4), &mut rows[..2])), 7);
    assert_eq!(rows, [77; 4]);
    assert_eq!(lent::split_candidates(10, 0..10, &closed(4), &mut rows[..3]), Ok(3));
    assert_eq!(rows, [4, 5, 6, 77]);
    assert_eq!(number(lent::split_candidates(10, 0..10, &closed(5), &mut [])), 7);
}

#[test]
fn searches() {
    let readings = column(&[0.0, 0.0, 0.0, 8.0]);
    assert_eq!(place(owned::find_best_split(readings, 0..4, &closed(1)).unwrap()), (3, 48.0));
    assert_eq!(place(owned::find_best_split(readings, 0..4, &with_m(1)).unwrap()), (2, 16.0));
    assert_eq!(place(owned::find_best_split(readings, 0..4, &closed(2)).unwrap()), (2, 16.0));
    assert_eq!(number(owned::find_best_split(readings, 0..4, &with_m(2))), 9);
    assert_eq!(number(owned::find_best_split(readings, 0..4, &closed(3))), 9);
}

#[test]
fn stored_segments_of_two_rows() {
    let stored = |settings, segments| -> Vec<_> {
        let stored = owned::stored_segments(column(&[0.0, 0.0, 0.0, 8.0]), &settings, segments).unwrap();
        stored.iter().map(fields).collect()
    };
    let layers = Segments::Layers(&[0.5]);
    assert_eq!(stored(closed(1), layers), [(0, 2, 1, 0.0), (1, 3, 2, 0.0), (2, 4, 3, 32.0)]);
    assert_eq!(stored(with_m(1), layers), []);
    let draws = Segments::Draws { pairs: &[2, 4, 3, 4], most: 2 };
    assert_eq!(stored(closed(1), draws), [(2, 4, 3, 32.0)]);
    assert_eq!(stored(with_m(1), draws), []);
}

#[test]
fn the_most_nodes() {
    let everywhere = |n, settings| {
        let settings = Settings { threshold: -1.0, ..settings };
        owned::tree(column(&vec![0.0; n]), &settings, Segments::None).unwrap()
    };
    let tree = everywhere(4, closed(1));
    assert_eq!((tree.cuts, tree.nodes.len(), tree.records.len()), (vec![1, 2, 3], 7, 3));
    let last = tree.nodes[6];
    assert_eq!((last.start, last.stop, last.choice()), (3, 4, None));
    assert_eq!(everywhere(4, with_m(1)).cuts, [1, 2]);
    assert_eq!(everywhere(15, closed(5)).cuts, [5, 10]);
    for (n, m) in [(1, 1), (1, 2), (3, 2), (4, 2), (98, 7), (100, 7), (4096, 4096), (4096, 1)] {
        let most = (2 * (n / m)).max(2) - 1;
        let tree = everywhere(n, closed(m));
        assert_eq!((tree.nodes.len(), tree.cuts.len()), (most, (most - 1) / 2));
    }
}

#[test]
fn the_trees_room_follows() {
    let readings = column(&[0.0; 4]);
    let settings = Settings { threshold: -1.0, ..closed(1) };
    let (mut sums, mut rows, mut gains) = ([7.5; 5], [77; 35], [7.5; 7]);
    let (mut nodes, mut cuts) = ([Node::default(); 7], [77; 3]);
    let mut grown = |most: usize, records: usize, cuts: &mut [usize]| {
        let (rows, gains, nodes) = (&mut rows[..5 * records], &mut gains[..records], &mut nodes[..most]);
        lent::tree(readings, &settings, Lists::default(), TreeRoom { sums: &mut sums, rows, gains, nodes, cuts })
    };
    assert_eq!(number(grown(6, 7, &mut cuts)), 7);
    assert_eq!(number(grown(7, 6, &mut cuts)), 7);
    assert_eq!(number(grown(7, 7, &mut cuts[..2])), 7);
    assert_eq!(cuts, [77; 3]);
    let counts = grown(7, 7, &mut cuts).unwrap();
    assert_eq!((counts.nodes, counts.records, counts.cuts), (7, 3, 3));
    assert_eq!(cuts, [1, 2, 3]);
}

#[test]
fn picks() {
    let curve = [0.0, 0.0, 1.0, 2.0];
    let pick = |guess, settings| lent::pick(&curve, 4, 0..4, guess, &settings);
    assert_eq!(place(pick(3, closed(1)).unwrap()), (3, 2.0));
    assert_eq!(number(pick(3, with_m(1))), 12);
    assert_eq!(place(pick(1, closed(1)).unwrap()), (3, 2.0));
    assert_eq!(place(pick(1, with_m(1)).unwrap()), (2, 1.0));
    assert_eq!(number(pick(4, closed(1))), 12);
}

#[test]
fn equal_guesses_both_stay() {
    let listed = Settings { forbidden: Some(&[]), ..closed(1) };
    assert_eq!(lent::guesses(10, 4..6, &closed(1)).unwrap().rows(), [5, 5]);
    assert_eq!(lent::guesses(10, 4..6, &listed).unwrap().rows(), [5]);
    assert_eq!(number(lent::guesses(10, 4..6, &with_m(1))), 9);
    assert_eq!(lent::guesses(20, 0..20, &listed).unwrap().rows(), [5, 10, 15]);
}

#[test]
fn permutations_of_twice_m_values_test_one_sum() {
    let curves = Curves { deltas: [&[1.0, 0.0], &[], &[]], count: 1, ..Curves::default() };
    let both = Permutations { entries: &[0, 1, 1, 0], count: 2 };
    let tested = |settings| lent::permutation_test(curves, both, 1.0, &Settings { alpha: 0.5, ..settings });
    let found = tested(closed(1)).unwrap();
    assert_eq!((found.counter, found.p_value, found.significant), (2, 2.0 / 3.0, false));
    assert_eq!(number(tested(with_m(1))), 9);
    assert_eq!(number(tested(closed(2))), 9);
}
