//! Where a record comes from: in what is stored, in the tree, and of a row that is cut, as a value and as text.
use haspgarnet_changeforest::lent::{self, WhyRoom};
use haspgarnet_changeforest::{owned, Lists, Origin, Segments, Settings, Why};

mod common;
use common::{choice, column, number, with_m, without_origins};
use Origin::{Direct, Draw, Layer};

/// By itself it is best cut at 4, by 32. [0, 4) is best cut at 2 and [2, 6) at 4, both by 64, and [0, 8) again by 32.
const BUMP: [f64; 8] = [0.0, 0.0, 8.0, 8.0, 0.0, 0.0, 0.0, 0.0];

/// Two pairs that are passed over, one that is too short, [2, 6), one that is passed over, [0, 4).
const PAIRS: [usize; 12] = [8, 0, 4, 4, 0, 2, 2, 6, 6, 2, 0, 4];

fn cut_above(threshold: f64) -> Settings<'static> {
    Settings { threshold, ..with_m(1) }
}

fn drawn(pairs: &[usize]) -> Segments<'_> {
    Segments::Draws { pairs, most: 4096 }
}

/// Where the stored records come from, by both forms of the call.
fn stored(segments: Segments) -> Vec<Origin> {
    let stored = owned::stored_segments(column(&BUMP), &with_m(1), segments).unwrap();
    let (mut sums, mut rows, mut gains) = ([7.5; 9], vec![77; 5 * 4096], vec![7.5; 4096]);
    let room = lent::SegmentsRoom { sums: &mut sums, rows: &mut rows, gains: &mut gains };
    assert_eq!(lent::stored_segments(column(&BUMP), &with_m(1), segments.into(), room), Ok(stored.len()));
    let lent = rows.chunks_exact(5).take(stored.len()).map(|row| Origin::of(row[3], row[4]).unwrap());
    let owned: Vec<_> = stored.iter().map(|record| record.origin()).collect();
    assert!(owned.iter().copied().eq(lent));
    owned
}

/// Where the tree's records come from, and its nodes' choices.
fn grown(threshold: f64, segments: Segments) -> (Vec<Origin>, Vec<Option<Origin>>) {
    let tree = owned::tree(column(&BUMP), &cut_above(threshold), segments).unwrap();
    let records = tree.records.iter().map(|record| record.origin()).collect();
    (records, tree.nodes.iter().map(|node| node.choice().map(|choice| choice.origin())).collect())
}

/// Where the choice of the run comes from.
fn first(threshold: f64, segments: Segments) -> Origin {
    grown(threshold, segments).1[0].unwrap()
}

/// Where a cut comes from, by both forms of the call; the bytes that the lent one writes are the origin's text, and those behind them are
/// as they were.
fn cut(threshold: f64, segments: Segments, row: usize) -> Origin {
    let (mut sums, mut rows, mut gains) = ([7.5; 9], vec![77; 5 * 4096], vec![7.5; 4096]);
    let mut text = [7; 28];
    let room = WhyRoom { sums: &mut sums, rows: &mut rows, gains: &mut gains, text: &mut text };
    let why = lent::why(column(&BUMP), &cut_above(threshold), segments.into(), row, room).unwrap();
    assert_eq!(owned::why(column(&BUMP), &cut_above(threshold), segments, row), Ok(why));
    let Why::Cut { origin, length, .. } = why else { panic!("{why:?}") };
    assert_eq!(text[..length], *origin.to_string().as_bytes());
    assert_eq!(text[length..], [7; 28][length..]);
    origin
}

#[test]
fn as_text() {
    assert_eq!([Direct, Layer(3), Draw(0)].map(|origin| origin.to_string()), ["direct", "layer 3", "draw 0"]);
    assert_eq!(Layer(64).to_string(), "layer 64");
    assert_eq!(Draw(usize::MAX).to_string().len(), 25);
}

#[test]
fn by_a_kind_and_a_number() {
    assert_eq!([Origin::of(0, 0), Origin::of(1, 64), Origin::of(2, 0)], [Some(Direct), Some(Layer(64)), Some(Draw(0))]);
    assert_eq!([Origin::of(0, 1), Origin::of(3, 0), Origin::of(usize::MAX, 7)], [None; 3]);
}

/// 0.9 gives [0, 8) three times, 0.5 gives [0, 4), [2, 6) and [4, 8).
#[test]
fn layers_are_numbered_from_1_in_their_order() {
    assert_eq!(stored(Segments::Layers(&[0.5])), [Layer(1); 3]);
    assert_eq!(stored(Segments::Layers(&[0.9, 0.5])), [[Layer(1); 3], [Layer(2); 3]].concat());
    assert_eq!(stored(Segments::Layers(&[0.5, 0.9, 0.5])), [[Layer(1); 3], [Layer(2); 3], [Layer(3); 3]].concat());
    assert_eq!(stored(Segments::Layers(&[])), []);
}

/// 0.25 gives seven segments of two rows, of which none leaves a record.
#[test]
fn a_layer_without_records_is_counted() {
    assert_eq!(stored(Segments::Layers(&[0.25, 0.5])), [Layer(2); 3]);
}

#[test]
fn pairs_are_numbered_from_0_whether_or_not_they_leave_a_record() {
    assert_eq!(stored(drawn(&PAIRS)), [Draw(3), Draw(5)]);
    assert_eq!(stored(Segments::Draws { pairs: &PAIRS, most: 1 }), [Draw(3)]);
    assert_eq!(stored(drawn(&[0, 4, 0, 4, 2, 6])), [Draw(0), Draw(1), Draw(2)]);
    assert_eq!(stored(drawn(&[8, 8])), []);
}

#[test]
fn a_layer_decides() {
    let half = Segments::Layers(&[0.5]);
    let (records, choices) = grown(40.0, half);
    assert_eq!(records, [Layer(1), Layer(1), Layer(1), Direct, Direct, Direct]);
    assert_eq!(choices, [Some(Layer(1)), None, Some(Direct), None, Some(Direct)]);
    assert_eq!((cut(40.0, half, 2), cut(40.0, half, 4)), (Layer(1), Direct));
    assert_eq!(first(40.0, Segments::Layers(&[0.9, 0.5])), Layer(2));
}

#[test]
fn a_draw_decides() {
    let (records, choices) = grown(40.0, drawn(&PAIRS));
    assert_eq!(records[..2], [Draw(3), Draw(5)]);
    assert_eq!(records[2..], [Direct; 3]);
    assert_eq!(choices, [Some(Draw(3)), Some(Direct), None, None, Some(Direct)]);
    assert_eq!((cut(40.0, drawn(&PAIRS), 4), cut(40.0, drawn(&PAIRS), 2)), (Draw(3), Direct));
    assert_eq!(cut(40.0, drawn(&PAIRS[8..]), 2), Draw(1));
}

/// With nothing stored, with nothing that is greater, and where what is stored is not strictly greater.
#[test]
fn a_direct_record_decides() {
    assert_eq!(grown(31.0, Segments::None).0, [Direct; 3]);
    assert_eq!(first(31.0, Segments::None), Direct);
    assert_eq!(cut(31.0, Segments::None, 4), Direct);
    assert_eq!(first(31.0, drawn(&[4, 8])), Direct);
    assert_eq!((first(31.0, drawn(&[0, 8])), first(31.0, Segments::Layers(&[0.9]))), (Direct, Direct));
    assert_eq!(cut(31.0, drawn(&[0, 8]), 4), Direct);
}

/// Two layers with the same segments, a pair that stands twice, two pairs with the same gain.
#[test]
fn of_equal_gains_the_earliest_is_told() {
    assert_eq!(first(40.0, Segments::Layers(&[0.5, 0.5])), Layer(1));
    assert_eq!(first(40.0, Segments::Layers(&[0.9, 0.5, 0.5])), Layer(2));
    assert_eq!(first(40.0, drawn(&[4, 4, 0, 4, 0, 4])), Draw(1));
    assert_eq!((first(40.0, drawn(&[0, 4, 2, 6])), first(40.0, drawn(&[2, 6, 0, 4]))), (Draw(0), Draw(0)));
    assert_eq!(cut(40.0, drawn(&[4, 4, 0, 4, 0, 4]), 2), Draw(1));
}

/// The last of 64 layers, and a pair behind 99,999 that are passed over.
#[test]
fn great_numbers() {
    let layers = [&[0.9; 63][..], &[0.5]].concat();
    assert_eq!(cut(40.0, Segments::Layers(&layers), 2), Layer(64));
    let pairs = [[5, 5].repeat(99_999), vec![0, 4]].concat();
    assert_eq!(cut(40.0, drawn(&pairs), 2), Draw(99_999));
}

/// The same segments in the same order give the same tree, wherever they come from.
#[test]
fn nothing_else_depends_on_it() {
    for threshold in [-1.0, 0.0, 31.0, 40.0, 100.0] {
        let grown = |segments| owned::tree(column(&BUMP), &cut_above(threshold), segments).unwrap();
        let layered = grown(Segments::Layers(&[0.5]));
        let drawn = grown(drawn(&[0, 4, 2, 6, 4, 8]));
        assert_eq!(without_origins(&layered), without_origins(&drawn));
        assert_eq!(choice(&layered.nodes[0]), choice(&drawn.nodes[0]));
    }
}

/// Each answer: cut by a layer, by a draw and directly, near, barred, no number, not above.
fn answers() -> [(&'static [f64], Settings<'static>, Segments<'static>, usize); 7] {
    let barring = Settings { forbidden: Some(&[3, 4]), ..cut_above(40.0) };
    [
        (&BUMP, cut_above(40.0), Segments::Layers(&[0.5]), 2),
        (&BUMP, cut_above(40.0), Segments::Draws { pairs: &[8, 0, 0, 4], most: 1 }, 2),
        (&BUMP, cut_above(31.0), Segments::None, 4),
        (&BUMP, cut_above(40.0), Segments::None, 0),
        (&BUMP, barring, Segments::None, 4),
        (&[1e308; 8], cut_above(0.0), Segments::None, 4),
        (&BUMP, cut_above(40.0), Segments::None, 4),
    ]
}

/// What is lent for eight rows and three records, with so many bytes of text, and what comes of it.
fn lent_text(
    cells: &[f64],
    settings: &Settings,
    lists: Lists,
    row: usize,
    bytes: usize,
) -> (Result<Why, u32>, Vec<u8>) {
    let (mut sums, mut rows, mut gains, mut text) = ([7.5; 9], [77; 15], [7.5; 3], vec![7; bytes]);
    let room = WhyRoom { sums: &mut sums, rows: &mut rows, gains: &mut gains, text: &mut text };
    let why = lent::why(column(cells), settings, lists, row, room).map_err(|why| why.number());
    if why.is_err() {
        assert_eq!((sums, rows, gains), ([7.5; 9], [77; 15], [7.5; 3]));
    }
    (why, text)
}

#[test]
fn fewer_than_25_bytes_are_refused_whatever_the_answer() {
    for (cells, settings, segments, row) in answers() {
        let asked = |row, bytes| lent_text(cells, &settings, segments.into(), row, bytes);
        for bytes in [0, 6, 24] {
            assert_eq!(asked(row, bytes), (Err(7), vec![7; bytes]));
            assert_eq!(asked(8, bytes), (Err(7), vec![7; bytes]));
        }
        assert!(asked(row, 25).0.is_ok());
        assert_eq!(asked(8, 25), (Err(8), vec![7; 25]));
    }
}

#[test]
fn lower_numbers_come_before_it() {
    let asked = |settings: Settings, lists| lent_text(&BUMP, &settings, lists, 2, 24).0;
    assert_eq!(asked(Settings { m: 0, ..cut_above(40.0) }, Lists::default()), Err(2));
    assert_eq!(asked(with_m(1), Lists::default()), Err(3));
    assert_eq!(asked(cut_above(40.0), Lists { draws: &[0], most: 1, ..Lists::default() }), Err(5));
    assert_eq!(asked(cut_above(40.0), Lists { layers: &[1.0], ..Lists::default() }), Err(6));
    assert_eq!(asked(cut_above(40.0), Lists { draws: &[0, 9], most: 1, ..Lists::default() }), Err(7));
    let room = WhyRoom { sums: &mut [7.5; 9], ..WhyRoom::default() };
    assert_eq!(number(lent::why(column(&BUMP), &cut_above(40.0), Lists::default(), 2, room)), 7);
}

#[test]
fn only_a_cut_writes_text() {
    let texts = answers().map(|(cells, settings, segments, row)| {
        let (why, text) = lent_text(cells, &settings, segments.into(), row, 28);
        (matches!(why, Ok(Why::Cut { .. })), text.into_iter().map(char::from).collect::<String>())
    });
    let kept = |count| "\u{7}".repeat(count);
    assert_eq!(texts[0], (true, format!("layer 1{}", kept(21))));
    assert_eq!(texts[1], (true, format!("draw 1{}", kept(22))));
    assert_eq!(texts[2], (true, format!("direct{}", kept(22))));
    assert!(texts[3..].iter().all(|told| *told == (false, kept(28))));
}
