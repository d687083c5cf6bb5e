//! Why a row is on the sheet or is not: each reason, what is lent, what is refused.
use haspgarnet_changeforest::lent::{self, SegmentsRoom, WhyRoom};
use haspgarnet_changeforest::{owned, Lists, Matrix, Segments, Settings, Why};
use std::thread;

mod common;
use common::{column, number, with_m};

#[derive(Clone, Copy, Debug, PartialEq)]
enum Reason {
    Cut,
    Near,
    Barred(usize, usize),
    NoNumber,
    Below(f64),
}
use Reason::{Barred, Below, Cut, Near, NoNumber};

/// The reason, and the segment's ends.
type Told = (Reason, usize, usize);

fn told(why: Why) -> Told {
    match why {
        Why::Cut { start, stop, .. } => (Cut, start, stop),
        Why::TooNear { start, stop, .. } => (Near, start, stop),
        Why::Barred { a, b, start, stop, .. } => (Barred(a, b), start, stop),
        Why::NoNumber { start, stop, .. } => (NoNumber, start, stop),
        Why::NotAbove { gain, start, stop, .. } => (Below(gain), start, stop),
    }
}

/// Lent memory, filled with what no call writes.
#[derive(Clone, Debug, PartialEq)]
struct Memory {
    sums: Vec<f64>,
    rows: Vec<usize>,
    gains: Vec<f64>,
    text: Vec<u8>,
}

impl Memory {
    /// For so many sums and records.
    fn of(sums: usize, records: usize) -> Memory {
        Memory { sums: vec![7.5; sums], rows: vec![77; 5 * records], gains: vec![7.5; records], text: vec![7; 25] }
    }

    fn lend(&mut self) -> WhyRoom<'_> {
        WhyRoom { sums: &mut self.sums, rows: &mut self.rows, gains: &mut self.gains, text: &mut self.text }
    }

    fn segments(&mut self) -> SegmentsRoom<'_> {
        SegmentsRoom { sums: &mut self.sums, rows: &mut self.rows, gains: &mut self.gains }
    }

    /// The text of what is told, where it has one.
    fn write(&mut self, why: Why) {
        if let Why::Cut { origin, length, .. } = why {
            self.text[..length].copy_from_slice(origin.to_string().as_bytes());
        }
    }
}

/// The answer, by both forms of the call; the lent one has some entries more than it asks, at most three records being stored, and leaves
/// them as the call that stores alone does, but for the text of a cut.
fn why(readings: Matrix, settings: &Settings, segments: Segments, row: usize) -> Told {
    let mut memory = Memory::of((readings.rows + 1) * readings.columns + 2, 5);
    let mut stored = memory.clone();
    let lent = lent::why(readings, settings, segments.into(), row, memory.lend()).unwrap();
    lent::stored_segments(readings, settings, segments.into(), stored.segments()).unwrap();
    stored.write(lent);
    assert_eq!(memory, stored);
    assert_eq!(owned::why(readings, settings, segments, row), Ok(lent));
    told(lent)
}

/// The answers for every row.
fn whys(readings: Matrix, settings: &Settings, segments: Segments) -> Vec<Told> {
    (0..readings.rows).map(|row| why(readings, settings, segments, row)).collect()
}

fn cut_above(threshold: f64) -> Settings<'static> {
    Settings { threshold, ..with_m(1) }
}

/// M7: the run is cut at 4 by 128, and neither part is.
const STEP: [f64; 8] = [0.0, 0.0, 0.0, 0.0, 8.0, 8.0, 8.0, 8.0];

/// By itself not cut above 32, its gain at 4. [0, 4) is cut at 2 and [2, 6) at 4, by 64.
const BUMP: [f64; 8] = [0.0, 0.0, 8.0, 8.0, 0.0, 0.0, 0.0, 0.0];

#[test]
fn every_row_of_the_whole_case() {
    let (left, right) = (|reason| (reason, 0, 4), |reason| (reason, 4, 8));
    let rows = [left(Near), left(Below(0.0)), left(Below(0.0)), left(Near)];
    let others = [(Cut, 0, 8), right(Below(0.0)), right(Below(0.0)), right(Near)];
    assert_eq!(whys(column(&STEP), &cut_above(10.0), Segments::None), [rows, others].concat());
}

/// At 2 the sums 0, 0 and 16 give 2*16, and 32*32/(8*2*6).
#[test]
fn a_gain_that_is_not_above_is_told() {
    let asked = |threshold, row| why(column(&BUMP), &cut_above(threshold), Segments::None, row);
    assert_eq!(asked(40.0, 4), (Below(32.0), 0, 8));
    assert_eq!(asked(32.0, 4), (Below(32.0), 0, 8));
    assert_eq!(asked(31.9, 4), (Cut, 0, 8));
    assert_eq!(asked(40.0, 2), (Below(1024.0 / 96.0), 0, 8));
}

/// With m = 3 rows 3 to 6 of ten are far enough from both ends, and with the end closed row 7 is.
#[test]
fn too_near_an_end() {
    let far = |m, closed| {
        let settings = Settings { m, closed, threshold: 0.0, ..Settings::default() };
        let rows = whys(column(&[0.0; 10]), &settings, Segments::None);
        assert!(rows.iter().all(|told| matches!(told, (Near | Below(0.0), 0, 10))));
        (0..10).filter(|row| rows[*row].0 != Near).collect::<Vec<_>>()
    };
    assert_eq!(far(3, false), [3, 4, 5, 6]);
    assert_eq!(far(3, true), [3, 4, 5, 6, 7]);
    assert_eq!(far(5, false), []);
    assert_eq!(far(5, true), [5]);
    assert_eq!(far(4096, true), []);
}

#[test]
fn row_0_is_too_near_an_end() {
    for threshold in [f64::NEG_INFINITY, -1.0, 0.0, f64::INFINITY] {
        for readings in [column(&STEP), column(&[0.0]), column(&[1e308; 4])] {
            for closed in [false, true] {
                let settings = Settings { closed, forbidden: Some(&[0, 9]), ..cut_above(threshold) };
                assert_eq!(why(readings, &settings, Segments::None, 0).0, Near);
            }
        }
    }
}

/// Of the pairs that bar a row the first in the list is told, not the tightest; a pair (6, 6) bars nothing, nor does 3 of (3, 8).
#[test]
fn the_first_listed_pair_that_bars() {
    let asked = |forbidden, row| {
        let settings = Settings { m: 2, threshold: 0.0, forbidden: Some(forbidden), ..Settings::default() };
        why(column(&[0.0; 10]), &settings, Segments::None, row)
    };
    let mixed = [6, 6, 3, 8, 4, 5, 4, 5, 0, usize::MAX];
    assert_eq!(asked(&mixed, 5), (Barred(3, 8), 0, 10));
    assert_eq!(asked(&mixed, 6), (Barred(3, 8), 0, 10));
    assert_eq!(asked(&mixed, 3), (Barred(0, usize::MAX), 0, 10));
    assert_eq!(asked(&[4, 5, 3, 8], 5), (Barred(4, 5), 0, 10));
    assert_eq!(asked(&[4, 5, 3, 8], 4), (Barred(3, 8), 0, 10));
    assert_eq!(asked(&[4, 5, 3, 8], 3), (Below(0.0), 0, 10));
    assert_eq!(asked(&[4, 4, 5, 5], 5), (Below(0.0), 0, 10));
    assert_eq!(asked(&mixed, 1), (Near, 0, 10));
    assert_eq!(asked(&mixed, 8), (Near, 0, 10));
}

/// Row 4 barred, the run is cut at 3 by 96*96/120, and [3, 8) at 5 by 24*24/30. In [3, 5) row 4 is too near an end, which comes first.
#[test]
fn a_barred_row_may_be_too_near_an_end() {
    let settings = Settings { forbidden: Some(&[3, 4, 5, 6]), ..cut_above(10.0) };
    let rows = whys(column(&STEP), &settings, Segments::None);
    assert_eq!(rows[3..], [(Cut, 0, 8), (Near, 3, 5), (Cut, 3, 8), (Barred(5, 6), 5, 8), (Near, 5, 8)]);
}

/// The sums are 0, 0, 0, 1e308 and three infinities. Up to row 2 the gain of the run is infinite; at rows 3 and 4 infinity is taken from
/// infinity.
#[test]
fn gains_that_are_infinite_or_no_number() {
    let readings = column(&[0.0, 0.0, 1e308, 1e308, 0.0, 0.0]);
    let infinite = (Below(f64::INFINITY), 0, 6);
    let rows = [(Near, 0, 6), infinite, infinite, (NoNumber, 0, 6), (NoNumber, 0, 6), (Near, 0, 6)];
    assert_eq!(whys(readings, &cut_above(f64::INFINITY), Segments::None), rows);
    let closed = Settings { closed: true, ..cut_above(f64::INFINITY) };
    assert_eq!(why(readings, &closed, Segments::None, 5), (NoNumber, 0, 6));
    assert_eq!(why(readings, &cut_above(f64::MAX), Segments::None, 1), (Cut, 0, 6));
    let barring = Settings { forbidden: Some(&[2, 3]), ..cut_above(f64::INFINITY) };
    assert_eq!(why(readings, &barring, Segments::None, 3), (Barred(2, 3), 0, 6));
}

/// Split 0 and minus infinity cut nothing, not even above minus infinity.
#[test]
fn a_segment_whose_gains_are_all_no_number() {
    let rows = whys(column(&[1e308; 3]), &cut_above(f64::NEG_INFINITY), Segments::None);
    assert_eq!(rows, [(Near, 0, 3), (NoNumber, 0, 3), (Near, 0, 3)]);
}

/// With the end closed row 3 cuts by 48; without, row 2 does, by 16.
#[test]
fn the_closed_end() {
    let readings = column(&[0.0, 0.0, 0.0, 8.0]);
    let rows = |closed, threshold| whys(readings, &Settings { closed, ..cut_above(threshold) }, Segments::None);
    assert_eq!(rows(true, 10.0)[1..], [(Below(0.0), 0, 3), (Below(0.0), 0, 3), (Cut, 0, 4)]);
    assert_eq!(rows(false, 10.0)[1..], [(Near, 0, 2), (Cut, 0, 4), (Near, 2, 4)]);
    assert_eq!(rows(true, 48.0)[3], (Below(48.0), 0, 4));
    assert_eq!(rows(false, 48.0)[3], (Near, 0, 4));
}

/// [0, 4) is stored and lies in the run, so the run is cut at 2 by its record, whose ends are not the run's; [2, 8) then at 4 by its own.
#[test]
fn a_cut_by_a_stored_record_has_the_reached_segments_ends() {
    let layered = Segments::Layers(&[0.5]);
    let drawn = Segments::Draws { pairs: &[8, 0, 0, 4], most: 3 };
    for segments in [layered, drawn] {
        let rows = whys(column(&BUMP), &cut_above(40.0), segments);
        let first = [(Near, 0, 2), (Near, 0, 2), (Cut, 0, 8), (Near, 2, 4), (Cut, 2, 8)];
        assert_eq!(rows, [&first[..], &[(Below(0.0), 4, 8), (Below(0.0), 4, 8), (Near, 4, 8)]].concat());
    }
    let other = Segments::Draws { pairs: &[2, 6], most: 1 };
    let rows = whys(column(&BUMP), &cut_above(40.0), other);
    assert_eq!((rows[4], rows[2]), ((Cut, 0, 8), (Cut, 0, 4)));
    let none = Segments::Draws { pairs: &[2, 6], most: 0 };
    assert_eq!(why(column(&BUMP), &cut_above(40.0), none, 4), (Below(32.0), 0, 8));
}

/// Each row is answered cut where the sheet has it, and the segment told is the node that is cut at it, or the uncut one that holds it.
fn agrees_with_the_tree(readings: Matrix, settings: &Settings, segments: Segments) {
    let tree = owned::tree(readings, settings, segments).unwrap();
    for row in 0..readings.rows {
        let (reason, start, stop) = why(readings, settings, segments, row);
        assert_eq!(reason == Cut, tree.cuts.contains(&row), "{row}");
        let node = tree.nodes.iter().find(|node| {
            let held = (start..stop).contains(&row);
            let cut = node.choice().is_some_and(|choice| choice.split == row);
            let same = (node.start, node.stop, node.significant) == (start, stop, reason == Cut);
            same && if node.significant { cut } else { held }
        });
        assert!(node.is_some(), "{row}");
    }
}

#[test]
fn rows_answered_cut_are_the_sheets() {
    let wavy: Vec<f64> = (0..60).map(|row| [0.0, 3.0, 1.0, 7.0, 2.0][row / 7 % 5] + (row * row % 3) as f64).collect();
    let two = Matrix { cells: &wavy, rows: 30, columns: 2 };
    let pairs = Settings { forbidden: Some(&[20, 30, 4, 9, 7, 8, 0, 2]), ..with_m(2) };
    for segments in
        [Segments::None, Segments::Layers(&[0.6]), Segments::Draws { pairs: &[3, 30, 0, 17, 9, 26], most: 3 }]
    {
        for threshold in [f64::NEG_INFINITY, 0.0, 3.0, 12.0, 40.0, f64::INFINITY] {
            for closed in [false, true] {
                for readings in [column(&wavy), two] {
                    agrees_with_the_tree(readings, &Settings { threshold, closed, ..pairs }, segments);
                    agrees_with_the_tree(readings, &Settings { threshold, closed, ..with_m(4) }, segments);
                }
            }
        }
    }
}

/// Each of 4,094 cuts is of the segment from the cut before it; the way down takes no more stack for that.
#[test]
fn a_deep_run_takes_little_stack() {
    let cells = [0.0; 4096];
    let asked = |row| told(owned::why(column(&cells), &cut_above(-1.0), Segments::None, row).unwrap());
    thread::scope(|scope| {
        let small = || thread::Builder::new().stack_size(1 << 16);
        let last = small().spawn_scoped(scope, || asked(4095)).unwrap();
        let cut = small().spawn_scoped(scope, || asked(4094)).unwrap();
        assert_eq!((last.join().unwrap(), cut.join().unwrap()), ((Near, 4094, 4096), (Cut, 4093, 4096)));
    });
    assert_eq!(asked(1), (Cut, 0, 4096));
}

/// The number by which the lent call refuses; what was lent is as it was.
fn refused_lent(readings: Matrix, settings: &Settings, lists: Lists, row: usize, records: usize) -> u32 {
    let mut memory = Memory::of(9, records);
    let before = memory.clone();
    let no = number(lent::why(readings, settings, lists, row, memory.lend()));
    assert_eq!(memory, before);
    no
}

/// The number by which both forms refuse, the lent one with room enough.
fn refused(readings: Matrix, settings: &Settings, segments: Segments, row: usize) -> u32 {
    let lent = refused_lent(readings, settings, segments.into(), row, 4096);
    assert_eq!(number(owned::why(readings, settings, segments, row)), lent);
    lent
}

#[test]
fn no_row_of_the_run() {
    for segments in [Segments::None, Segments::Layers(&[0.5]), Segments::Draws { pairs: &[0, 4], most: 3 }] {
        let asked = |row| refused(column(&BUMP), &cut_above(40.0), segments, row);
        assert_eq!([asked(8), asked(9), asked(usize::MAX - 1), asked(usize::MAX)], [8; 4]);
    }
    assert_eq!(why(column(&BUMP), &cut_above(40.0), Segments::None, 7), (Near, 0, 8));
}

/// Each alone, and with a row past the run, which never comes before it.
#[test]
fn every_refusal_comes_before_the_rows() {
    let (good, bump) = (cut_above(40.0), column(&BUMP));
    let infinite = [0.0, f64::INFINITY, 0.0];
    let asked = |readings, settings: &Settings, segments, number| {
        for row in [1, 8, usize::MAX] {
            assert_eq!(refused(readings, settings, segments, row), number);
        }
    };
    asked(Matrix { rows: 7, ..bump }, &good, Segments::None, 1);
    asked(Matrix { rows: 0, columns: 1, cells: &[] }, &good, Segments::None, 1);
    asked(Matrix { rows: usize::MAX, columns: usize::MAX, cells: &[] }, &good, Segments::None, 1);
    asked(bump, &Settings { m: 0, ..good }, Segments::None, 2);
    asked(bump, &Settings { m: 4097, ..good }, Segments::None, 2);
    asked(bump, &Settings { threshold: f64::NAN, ..good }, Segments::None, 3);
    asked(bump, &with_m(1), Segments::None, 3);
    asked(column(&infinite), &good, Segments::None, 4);
    asked(bump, &Settings { forbidden: Some(&[3]), ..good }, Segments::None, 5);
    asked(bump, &Settings { forbidden: Some(&[3, 2]), ..good }, Segments::None, 5);
    asked(bump, &good, Segments::Draws { pairs: &[0, 4, 2], most: 2 }, 5);
    asked(bump, &good, Segments::Layers(&[0.5, 1.0]), 6);
    asked(bump, &good, Segments::Draws { pairs: &[0, 4], most: 4097 }, 6);
    asked(bump, &good, Segments::Draws { pairs: &[0, 9], most: 1 }, 8);
    asked(bump, &good, Segments::Draws { pairs: &[9, 9], most: 0 }, 8);
    let both = Lists { layers: &[0.5], draws: &[0, 4], most: 3 };
    assert_eq!(refused_lent(bump, &good, both, 8, 4096), 6);
}

#[test]
fn the_lowest_number_is_given() {
    let all = Settings { m: 0, threshold: f64::NAN, forbidden: Some(&[3]), ..Settings::default() };
    let infinite = column(&[f64::INFINITY; 8]);
    let draws = Segments::Draws { pairs: &[0, 9, 1], most: 4097 };
    let asked = |readings, settings: &Settings| refused(readings, settings, draws, 99);
    assert_eq!(asked(Matrix { columns: 2, ..infinite }, &all), 1);
    assert_eq!(asked(infinite, &all), 2);
    assert_eq!(asked(infinite, &Settings { m: 1, ..all }), 3);
    assert_eq!(asked(infinite, &Settings { m: 1, threshold: 0.0, ..all }), 4);
    assert_eq!(asked(column(&BUMP), &Settings { m: 1, threshold: 0.0, ..all }), 5);
    let even = Segments::Draws { pairs: &[0, 9], most: 4097 };
    assert_eq!(refused(column(&BUMP), &cut_above(0.0), even, 99), 6);
}

/// Nine sums, two records where two may be stored, and the text; nothing for nodes or cuts.
#[test]
fn room() {
    let (bump, good) = (column(&BUMP), cut_above(40.0));
    let drawn = |draws| Lists { draws, most: 2, ..Lists::default() };
    assert_eq!(refused_lent(bump, &good, drawn(&[0, 4]), 2, 1), 7);
    assert_eq!(refused_lent(bump, &good, drawn(&[0, 4]), 8, 1), 7);
    assert_eq!(refused_lent(bump, &good, drawn(&[0, 9]), 2, 1), 7);
    assert_eq!(refused_lent(bump, &good, drawn(&[0, 9]), 2, 2), 8);
    assert_eq!(refused_lent(bump, &good, drawn(&[0, 4]), 8, 2), 8);
    let layered = Lists { layers: &[0.5], ..Lists::default() };
    assert_eq!(refused_lent(bump, &good, layered, 2, 2), 7);
    let mut memory = Memory::of(9, 3);
    let asked = lent::why(bump, &good, layered, 2, memory.lend());
    assert_eq!(told(asked.unwrap()), (Cut, 0, 8));
    let mut memory = Memory::of(8, 0);
    assert_eq!(number(lent::why(bump, &good, Lists::default(), 2, memory.lend())), 7);
    assert_eq!(memory, Memory::of(8, 0));
    assert_eq!(number(lent::why(bump, &good, Lists::default(), 2, WhyRoom::default())), 7);
    let most = Lists { most: 4096, ..Lists::default() };
    let mut memory = Memory::of(9, 0);
    assert_eq!(told(lent::why(bump, &good, most, 4, memory.lend()).unwrap()), (Below(32.0), 0, 8));
}
