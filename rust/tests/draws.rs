//! Drawn segments: which are stored, what the tree makes of them, what is refused.
use haspgarnet_changeforest::lent::{self, SegmentsRoom, TreeRoom};
use haspgarnet_changeforest::{owned, Lists, Node, Segments, Settings, Tree};

mod common;
use common::{choice, column, fields, number, with_m, without_origins};

/// The sums are 0, 0, 0, 8, 16, 16, 16, 16, 16. With m = 1, [0, 4) is best cut at 2, as [2, 6) at 4, by 32*32/16 = 64.
const BUMP: [f64; 8] = [0.0, 0.0, 8.0, 8.0, 0.0, 0.0, 0.0, 0.0];
const RISE: (usize, usize, usize, f64) = (0, 4, 2, 64.0);
const FALL: (usize, usize, usize, f64) = (2, 6, 4, 64.0);

/// The most nodes of eight rows with m = 1.
const NODES: usize = 13;

/// Above the gain of the whole run, 64*64/128 = 32 at row 4.
fn settings() -> Settings<'static> {
    Settings { threshold: 40.0, ..with_m(1) }
}

/// Lent memory, filled with what no call writes.
#[derive(Clone, Debug, PartialEq)]
struct Memory {
    sums: Vec<f64>,
    rows: Vec<usize>,
    gains: Vec<f64>,
    nodes: Vec<Node>,
    cuts: Vec<usize>,
}

impl Memory {
    /// For eight rows and so many records.
    fn of(records: usize) -> Memory {
        Memory {
            sums: vec![7.5; 9],
            rows: vec![77; 5 * records],
            gains: vec![7.5; records],
            nodes: vec![Node::default(); NODES],
            cuts: vec![77; 6],
        }
    }

    fn segments(&mut self) -> SegmentsRoom<'_> {
        SegmentsRoom { sums: &mut self.sums, rows: &mut self.rows, gains: &mut self.gains }
    }

    fn tree(&mut self) -> TreeRoom<'_> {
        let Memory { sums, rows, gains, nodes, cuts } = self;
        TreeRoom { sums, rows, gains, nodes, cuts }
    }
}

/// What is stored, by both forms of the call; the lent one has room for just as many records as it asks.
fn stored(settings: &Settings, pairs: &[usize], most: usize) -> Vec<(usize, usize, usize, f64)> {
    let (readings, segments) = (column(&BUMP), Segments::Draws { pairs, most });
    let owned = owned::stored_segments(readings, settings, segments).unwrap();
    let asked = if pairs.is_empty() { 0 } else { most };
    let mut memory = Memory::of(asked);
    let count = lent::stored_segments(readings, settings, segments.into(), memory.segments()).unwrap();
    let rows: Vec<_> = owned.iter().flat_map(|r| [r.start, r.stop, r.split, r.kind, r.number]).collect();
    let gains: Vec<_> = owned.iter().map(|r| r.gain).collect();
    assert_eq!(count, owned.len());
    assert_eq!(memory.rows, [rows, vec![77; 5 * (asked - count)]].concat());
    assert_eq!(memory.gains, [gains, vec![7.5; asked - count]].concat());
    assert_eq!(memory.sums, [0.0, 0.0, 0.0, 8.0, 16.0, 16.0, 16.0, 16.0, 16.0]);
    owned.iter().map(fields).collect()
}

/// The tree, by both forms of the call.
fn grown(settings: &Settings, segments: Segments) -> Tree {
    let tree = owned::tree(column(&BUMP), settings, segments).unwrap();
    let mut memory = Memory::of(NODES + 3);
    let counts = lent::tree(column(&BUMP), settings, segments.into(), memory.tree()).unwrap();
    let found = (counts.nodes, counts.records, counts.cuts, counts.stored);
    assert_eq!(found, (tree.nodes.len(), tree.records.len(), tree.cuts.len(), tree.stored));
    assert_eq!((&memory.nodes[..counts.nodes], &memory.cuts[..counts.cuts]), (&tree.nodes[..], &tree.cuts[..]));
    tree
}

/// The number by which both lent calls refuse; what was lent is as it was.
fn refused_lent(lists: Lists) -> u32 {
    let mut memory = Memory::of(NODES + lists.most.min(4096));
    let before = memory.clone();
    let stored = number(lent::stored_segments(column(&BUMP), &settings(), lists, memory.segments()));
    assert_eq!(number(lent::tree(column(&BUMP), &settings(), lists, memory.tree())), stored);
    assert_eq!(memory, before);
    stored
}

/// The number by which both forms of both calls refuse draws.
fn refused(pairs: &[usize], most: usize) -> u32 {
    let segments = Segments::Draws { pairs, most };
    let lent = refused_lent(segments.into());
    assert_eq!(number(owned::stored_segments(column(&BUMP), &settings(), segments)), lent);
    assert_eq!(number(owned::tree(column(&BUMP), &settings(), segments)), lent);
    lent
}

#[test]
fn those_that_answer_are_stored_in_order() {
    assert_eq!(stored(&settings(), &[2, 6, 0, 4], 2), [FALL, RISE]);
    assert_eq!(stored(&settings(), &[0, 4, 2, 6, 0, 4], 9), [RISE, FALL, RISE]);
    assert_eq!(stored(&settings(), &[4, 8], 1), [(4, 8, 5, 0.0)]);
    assert_eq!(stored(&settings(), &[], 3), []);
}

#[test]
fn pairs_that_cross_are_passed_over() {
    assert_eq!(stored(&settings(), &[4, 4, 6, 2, 0, 4, usize::MAX, 8, 0, 0, 8, 8], 6), [RISE]);
    assert_eq!(stored(&settings(), &[8, 0], 1), []);
}

/// [0, 2) and [3, 5) are too short; the pair (0, 2) bars both rows of [0, 4) and none of [2, 6).
#[test]
fn refused_segments_leave_no_record() {
    assert_eq!(stored(&settings(), &[0, 2, 2, 6, 3, 5], 3), [FALL]);
    let barring = Settings { forbidden: Some(&[0, 2]), ..settings() };
    assert_eq!(stored(&barring, &[0, 4, 2, 6], 2), [FALL]);
    assert_eq!(stored(&Settings { m: 2, ..settings() }, &[0, 4, 2, 6], 2), []);
}

#[test]
fn until_so_many_records_stand() {
    let pairs = [0, 2, 4, 4, 0, 4, 2, 6, 4, 8];
    assert_eq!(stored(&settings(), &pairs, 0), []);
    assert_eq!(stored(&settings(), &pairs, 1), [RISE]);
    assert_eq!(stored(&settings(), &pairs, 2), [RISE, FALL]);
    assert_eq!(stored(&settings(), &pairs, 3), [RISE, FALL, (4, 8, 5, 0.0)]);
    assert_eq!(stored(&settings(), &pairs, 4), [RISE, FALL, (4, 8, 5, 0.0)]);
    let many = [0, 4].repeat(4097);
    assert_eq!(stored(&settings(), &many, 4096), vec![RISE; 4096]);
}

/// The sums overflow at the second row: at row 1 infinity is taken from infinity.
#[test]
fn a_segment_whose_gains_are_all_nan_is_stored() {
    let readings = column(&[1e308; 3]);
    let segments = Segments::Draws { pairs: &[0, 3, 0, 3], most: 1 };
    let nothing = (0, 3, 0, f64::NEG_INFINITY);
    let stored = owned::stored_segments(readings, &with_m(1), segments).unwrap();
    assert_eq!(stored.iter().map(fields).collect::<Vec<_>>(), [nothing]);
    let settings = Settings { threshold: f64::NEG_INFINITY, ..with_m(1) };
    let tree = owned::tree(readings, &settings, segments).unwrap();
    assert_eq!((tree.nodes.len(), tree.stored), (1, 1));
    assert_eq!(tree.records.iter().map(fields).collect::<Vec<_>>(), [nothing, nothing]);
}

/// By itself the run is not cut. [0, 4) lies in it and is, so the run is cut at 2, and [2, 8) by 64*64/48 at 4.
#[test]
fn a_choice_may_be_a_drawn_segments() {
    let tree = grown(&settings(), Segments::None);
    assert_eq!((tree.cuts, tree.nodes.len(), tree.stored), (vec![], 1, 0));
    let tree = grown(&settings(), Segments::Draws { pairs: &[8, 0, 0, 4], most: 3 });
    assert_eq!((tree.cuts, tree.nodes.len(), tree.stored), (vec![2, 4], 5, 1));
    assert_eq!(choice(&tree.nodes[0]), Some(RISE));
    assert_eq!(choice(&tree.nodes[2]), Some((2, 8, 4, 4096.0 / 48.0)));
    let records: Vec<_> = tree.records.iter().map(fields).collect();
    assert_eq!(records, [RISE, (0, 8, 4, 32.0), (2, 8, 4, 4096.0 / 48.0), (4, 8, 5, 0.0)]);
}

/// Of equal gains the earlier draw's decides.
#[test]
fn the_earliest_of_the_greatest_decides() {
    let first = |pairs| choice(&grown(&settings(), Segments::Draws { pairs, most: 2 }).nodes[0]);
    assert_eq!(first(&[0, 4, 2, 6]), Some(RISE));
    assert_eq!(first(&[2, 6, 0, 4]), Some(FALL));
}

/// The layer's segments are [0, 4), [2, 6) and [4, 8). Drawn, they give the same tree, but for where its records come from.
#[test]
fn stored_records_are_counted_of_layers_too() {
    let tree = grown(&settings(), Segments::Layers(&[0.5]));
    let drawn = grown(&settings(), Segments::Draws { pairs: &[0, 4, 2, 6, 4, 8], most: 3 });
    assert_eq!(tree.stored, 3);
    assert_eq!(without_origins(&tree), without_origins(&drawn));
    assert_ne!(tree, drawn);
}

#[test]
fn a_draw_stops_within_the_run() {
    assert_eq!(refused(&[0, 9], 1), 8);
    assert_eq!(refused(&[0, usize::MAX], 1), 8);
    assert_eq!(refused(&[9, 9], 1), 8);
    assert_eq!(refused(&[usize::MAX, 9], 1), 8);
    assert_eq!(refused(&[0, 4, 0, 9], 1), 8);
    assert_eq!(refused(&[0, 9], 0), 8);
}

#[test]
fn a_list_of_draws_is_even() {
    assert_eq!(refused(&[0], 1), 5);
    assert_eq!(refused(&[0, 4, 2], 2), 5);
    assert_eq!(refused(&[0, 4, 2], 4097), 5);
    assert_eq!(refused(&[0, 9, 2], 2), 5);
}

#[test]
fn at_most_4096_are_stored() {
    assert_eq!(refused(&[0, 4], 4097), 6);
    assert_eq!(refused(&[0, 9], usize::MAX), 6);
    assert_eq!(refused(&[], 4097), 6);
    assert_eq!(refused_lent(Lists { layers: &[0.5], draws: &[], most: 4097 }), 6);
}

#[test]
fn layers_or_draws() {
    assert_eq!(refused_lent(Lists { layers: &[0.5], draws: &[0, 4], most: 3 }), 6);
    assert_eq!(refused_lent(Lists { layers: &[0.5], draws: &[4, 4], most: 0 }), 6);
    assert_eq!(refused_lent(Lists { layers: &[0.5], draws: &[0, 9], most: 3 }), 6);
    assert_eq!(refused_lent(Lists { layers: &[0.5], draws: &[0], most: 3 }), 5);
    assert_eq!(refused_lent(Lists { layers: &[1.0], draws: &[], most: 0 }), 6);
}

/// Two records may be stored, though one draw is there.
#[test]
fn room_is_asked_for_as_many_as_may_be_stored() {
    let short = |draws, records| {
        let lists = Lists { draws, most: 2, ..Lists::default() };
        let mut memory = Memory::of(records);
        let before = memory.clone();
        let stored = number(lent::stored_segments(column(&BUMP), &settings(), lists, memory.segments()));
        assert_eq!(memory, before);
        stored
    };
    assert_eq!(short(&[0, 4], 1), 7);
    assert_eq!(short(&[0, 9], 1), 7);
    assert_eq!(short(&[0, 9], 2), 8);
    let tree = |draws, records| {
        let lists = Lists { draws, most: 2, ..Lists::default() };
        lent::tree(column(&BUMP), &settings(), lists, Memory::of(records).tree())
    };
    assert_eq!(number(tree(&[0, 4], NODES + 1)), 7);
    assert_eq!(number(tree(&[0, 9], NODES + 1)), 7);
    assert_eq!(number(tree(&[0, 9], NODES + 2)), 8);
    assert_eq!(tree(&[0, 4], NODES + 2).unwrap().stored, 1);
}

/// Room for the layer's three segments, or for none, is enough.
#[test]
fn without_draws_the_most_is_not_looked_at() {
    let stored = |layers, records| {
        let lists = Lists { layers, draws: &[], most: 4096 };
        lent::stored_segments(column(&BUMP), &settings(), lists, Memory::of(records).segments())
    };
    assert_eq!(stored(&[0.5], 3), Ok(3));
    assert_eq!(stored(&[], 0), Ok(0));
    let lists = Lists { most: 4096, ..Lists::default() };
    let counts = lent::tree(column(&BUMP), &settings(), lists, Memory::of(NODES).tree()).unwrap();
    assert_eq!((counts.nodes, counts.records, counts.cuts, counts.stored), (1, 1, 0, 0));
}
