use crate::lent::{numbers, values, Lent};
use crate::mean::{as_gain_leaves, matrix, shortest, sums_of};
use crate::outcome::agree;
use crate::{Call, Outcome};
use haspgarnet_changeforest::lent::SegmentsRoom;
use haspgarnet_changeforest::{lent, owned, Lists, Refusal, Segments, Settings};
use protocol::{Line, Origin, Record, Stored};

/// Room for records: a record is five numbers and a gain.
pub struct Records {
    pub rows: Lent<usize>,
    pub gains: Lent<f64>,
}

const NUMBERS: usize = 5;

impl Records {
    pub fn of(length: usize) -> Records {
        Records { rows: numbers(NUMBERS * length), gains: values(length) }
    }

    pub fn told(&self, count: usize) -> Vec<Record> {
        let (rows, gains) = (self.rows.told(NUMBERS * count), self.gains.told(count));
        let record = |(row, gain): (&[usize], &f64)| Record {
            start: row[0],
            stop: row[1],
            split: row[2],
            gain: *gain,
            origin: origin(row[3], row[4]),
        };
        rows.chunks_exact(NUMBERS).zip(gains).map(record).collect()
    }

    pub fn kept_past(&self, told: usize) -> bool {
        self.rows.kept_past(NUMBERS * told) && self.gains.kept_past(told)
    }
}

fn origin(kind: usize, number: usize) -> Origin {
    use haspgarnet_changeforest::Origin as Known;
    match Known::of(kind, number) {
        Some(Known::Direct) => Origin::Direct,
        Some(Known::Layer(number)) => Origin::Layer(number),
        Some(Known::Draw(number)) => Origin::Draw(number),
        None => Origin::Unknown(kind, number),
    }
}

pub fn record(record: &haspgarnet_changeforest::Record) -> Record {
    Record {
        start: record.start,
        stop: record.stop,
        split: record.split,
        gain: record.gain,
        origin: origin(record.kind, record.number),
    }
}

pub fn settings(case: &Stored) -> Settings<'_> {
    Settings { forbidden: case.forbidden.as_deref(), ..shortest(case.shortest) }
}

pub fn lists(case: &Stored) -> Lists<'_> {
    let protocol::Lists { layers, draws, w } = &case.lists;
    Lists { layers, draws, most: *w }
}

/// The lists as calls with room of their own take them: never both. W goes with draws; beside layers it
/// can't be given, and changes nothing up to its size.
pub fn segments(case: &Stored) -> Option<Segments<'_>> {
    const MOST: usize = 4_096;
    match lists(case) {
        Lists { layers: [], draws: [], most: 0 } => Some(Segments::None),
        Lists { layers: [], draws, most } => Some(Segments::Draws { pairs: draws, most }),
        Lists { layers, draws: [], most: 0..=MOST } => Some(Segments::Layers(layers)),
        _ => None,
    }
}

/// Whether it is told of every record where it comes from.
pub fn known<'a>(mut records: impl Iterator<Item = &'a Record>) -> bool {
    records.all(|record| !matches!(record.origin, Origin::Unknown(..)))
}

/// What the lent call that stores alone answers, and whether all else is as it was. The line's first two
/// slices are lent to it: sums and records.
pub fn stored(case: &Stored, line: &Line) -> (Result<Vec<Record>, Refusal>, bool) {
    let readings = matrix(&case.matrix);
    let (mut sums, mut records) = (values(line.lent(1)), Records::of(line.lent(2)));
    let room = SegmentsRoom {
        sums: sums.slice(),
        rows: records.rows.slice(),
        gains: records.gains.slice(),
    };
    let count = lent::stored_segments(readings, &settings(case), lists(case), room);
    let told = count.map_or(0, |_| sums_of(&readings));
    let left = count.is_err() || as_gain_leaves(readings, sums.told(told));
    let kept = left && sums.kept_past(told) && records.kept_past(count.unwrap_or(0));
    let stored = count.map(|count| records.told(count));
    let kept = kept && known(stored.iter().flatten());
    (stored, kept)
}

impl Call for Stored {
    fn call(&self, line: &Line) -> Outcome {
        let (stored, kept) = stored(self, line);
        let told = stored.map(|records| Stored::answer(&records));
        let agrees = segments(self).is_none_or(|segments| {
            let owned = owned::stored_segments(matrix(&self.matrix), &settings(self), segments);
            let records = |list: Vec<_>| list.iter().map(record).collect::<Vec<_>>();
            agree(told.clone(), owned.map(|list| Stored::answer(&records(list))))
        });
        Outcome { kept, agrees, told }
    }
}
