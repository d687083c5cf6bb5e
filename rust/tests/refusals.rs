//! Every refusal, and that it leaves what was lent as it was.
use haspgarnet_changeforest::lent::{self, TreeRoom};
use haspgarnet_changeforest::{owned, Curves, Lists, Matrix, Node, Permutations, Segments, Settings};
use std::ops::Range;

mod common;
use common::{column, number, with_m};

fn barring(forbidden: &[usize]) -> Settings<'_> {
    Settings { forbidden: Some(forbidden), ..with_m(1) }
}

const HUGE: usize = usize::MAX;

/// Of more rows and columns than there is memory for.
const HUGE_MATRIX: Matrix = Matrix { cells: &[], rows: HUGE, columns: HUGE };

#[test]
fn what_must_be_given_is_refused_where_it_is_not() {
    let nothing = Settings::default();
    let readings = column(&[0.0; 5]);
    assert_eq!(number(owned::split_candidates(5, 0..5, &nothing)), 2);
    assert_eq!(number(owned::find_best_split(readings, 0..5, &nothing)), 2);
    assert_eq!(number(owned::stored_segments(readings, &nothing, Segments::None)), 2);
    assert_eq!(number(owned::tree(readings, &nothing, Segments::None)), 2);
    assert_eq!(number(owned::tree(readings, &with_m(1), Segments::None)), 3);
    assert_eq!(number(lent::pick(&[0.0; 5], 5, 0..5, 2, &nothing)), 2);
    assert_eq!(number(lent::guesses(5, 0..5, &nothing)), 2);
    assert_eq!(number(lent::permutation_test(Curves::default(), Permutations::default(), 1.0, &with_m(1))), 3);
    assert_eq!(number(owned::gain(Matrix::default(), 0..0, 0)), 1);
    let enough = Settings { threshold: 0.0, ..with_m(1) };
    assert_eq!(number(lent::tree(readings, &enough, Lists::default(), TreeRoom::default())), 7);
}

#[test]
fn sizes() {
    assert_eq!(number(owned::split_candidates(0, 0..0, &with_m(1))), 1);
    assert_eq!(number(owned::gain(Matrix { cells: &[0.0; 5], rows: 2, columns: 3 }, 0..2, 1)), 1);
    assert_eq!(number(owned::gain(HUGE_MATRIX, 0..2, 1)), 1);
    assert_eq!(number(owned::ordering(column(&[0.0; 1025]))), 1);
    assert_eq!(number(owned::split_candidates(10, 0..10, &with_m(0))), 2);
    assert_eq!(number(lent::minimal_segment_length(f64::NAN, 10)), 2);
}

#[test]
fn values() {
    let layered = |layers| owned::stored_segments(column(&[0.0]), &with_m(1), Segments::Layers(layers));
    assert_eq!(number(owned::find_best_split(column(&[0.0, f64::NAN, 0.0]), 0..3, &with_m(1))), 4);
    assert_eq!(number(owned::gain_from_likelihoods(&[f64::INFINITY], &[0.0])), 4);
    assert_eq!(number(owned::split_candidates(10, 0..10, &barring(&[3]))), 5);
    assert_eq!(number(owned::split_candidates(10, 0..10, &barring(&[3, 2]))), 5);
    assert_eq!(number(layered(&[1.0])), 6);
    assert_eq!(number(layered(&[0.5; 65])), 6);
}

#[test]
fn trees() {
    let cut_at = |threshold| Settings { threshold, ..with_m(1) };
    let readings = column(&[0.0; 5]);
    assert_eq!(number(owned::tree(readings, &cut_at(f64::NAN), Segments::None)), 3);
    assert_eq!(number(owned::tree(readings, &cut_at(0.0), Segments::Layers(&[0.0]))), 6);
    assert_eq!(number(owned::tree(HUGE_MATRIX, &cut_at(0.0), Segments::None)), 1);
    let (mut sums, mut rows, mut gains) = ([7.5; 6], [77; 35], [7.5; 7]);
    let (mut nodes, mut cuts) = ([Node::default(); 7], [77; 3]);
    let mut grown = |most: usize, cuts: &mut [usize]| {
        let nodes = &mut nodes[..most];
        let room = TreeRoom { sums: &mut sums, rows: &mut rows, gains: &mut gains, nodes, cuts };
        lent::tree(readings, &cut_at(-1.0), Lists::default(), room)
    };
    assert_eq!(number(grown(6, &mut cuts)), 7);
    assert_eq!(number(grown(7, &mut cuts[..2])), 7);
    assert_eq!(cuts, [77; 3]);
    let counts = grown(7, &mut cuts).unwrap();
    assert_eq!((counts.nodes, counts.records, counts.cuts, counts.stored), (7, 3, 3, 0));
    assert_eq!(cuts, [1, 2, 3]);
}

#[test]
fn room() {
    let (mut rows, mut sums, mut ordering) = ([77; 3], [7.5; 5], [77; 15]);
    let readings = column(&[0.0, 1.0, 3.0, 7.0]);
    assert_eq!(number(lent::split_candidates(10, 0..10, &with_m(3), &mut rows)), 7);
    assert_eq!(number(lent::find_best_split(readings, 0..4, &with_m(1), &mut sums[..4])), 7);
    assert_eq!(number(lent::ordering(readings, &mut ordering, &mut sums)), 7);
    assert_eq!((rows, sums, ordering), ([77; 3], [7.5; 5], [77; 15]));
}

#[test]
fn segments() {
    let readings = column(&[0.0; 4]);
    assert_eq!(number(owned::split_candidates(10, 0..11, &with_m(1))), 8);
    assert_eq!(number(owned::split_candidates(10, 0..HUGE, &with_m(1))), 8);
    assert_eq!(number(owned::split_candidates(10, Range { start: HUGE, end: 0 }, &with_m(1))), 8);
    assert_eq!(number(owned::gain(readings, 2..3, 1)), 8);
    assert_eq!(number(owned::predict(readings, 2..2, 2)), 8);
    assert_eq!(number(owned::predict(readings, 0..HUGE, 2)), 8);
    assert_eq!(number(owned::find_best_split(readings, 0..4, &with_m(2))), 9);
    assert_eq!(number(owned::split_candidates(10, 0..10, &with_m(HUGE))), 2);
    assert_eq!(number(owned::split_candidates(10, 0..10, &barring(&[0, 9]))), 10);
}

#[test]
fn a_refused_search_leaves_the_sums() {
    let mut sums = [7.5; 5];
    assert_eq!(number(lent::find_best_split(column(&[1.0; 4]), 0..4, &with_m(2), &mut sums)), 9);
    assert_eq!(sums, [7.5; 5]);
}

#[test]
fn curves() {
    assert_eq!(number(owned::gain_from_likelihoods(&[0.0, 1.0], &[0.0])), 12);
    assert_eq!(number(owned::gain_from_likelihoods(&[], &[])), 12);
    assert_eq!(number(lent::pick(&[0.0; 5], 5, 0..5, 4, &with_m(1))), 12);
    assert_eq!(number(lent::guesses(5, 0..5, &barring(&[0, 4]))), 10);
}

#[test]
fn permutations() {
    let settings = Settings { alpha: 0.5, ..with_m(1) };
    let all_of_one = Curves { deltas: [&[1.0, 0.0, -1.0], &[], &[]], count: 1, ..Curves::default() };
    let four = Curves { deltas: [&[1.0, 0.0, -1.0]; 3], count: 4, ..Curves::default() };
    let whole = Permutations { entries: &[0, 1, 2], count: 1 };
    let tested = |curves, permutations| lent::permutation_test(curves, permutations, 1.0, &settings);
    let listed = |entries| tested(all_of_one, Permutations { entries, count: 1 });
    assert_eq!(number(lent::permutation_test(all_of_one, whole, 1.0, &Settings { alpha: 1.0, ..settings })), 3);
    assert_eq!(number(lent::permutation_test(all_of_one, whole, f64::NAN, &settings)), 4);
    assert_eq!(number(tested(Curves::default(), Permutations::default())), 9);
    assert_eq!(number(listed(&[0, 1, 1])), 11);
    assert_eq!(number(listed(&[0, 1, 3])), 11);
    assert_eq!(number(tested(all_of_one, Permutations { count: HUGE, ..whole })), 11);
    assert_eq!(number(tested(four, whole)), 12);
}

#[test]
fn a_refusal_says_why() {
    let refusal = owned::gain(Matrix { cells: &[], rows: 0, columns: 1 }, 0..0, 0).unwrap_err();
    assert_eq!(refusal.to_string(), "refusal 1: n or d outside its size, or the matrix is not n*d");
}
