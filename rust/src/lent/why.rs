//! Why a row is on the sheet or is not.
use crate::refusal::unless;
use crate::{ffi, Lists, Matrix, Origin, Refusal, Settings, Why};

/// The memory that a row is told of in: that of [`SegmentsRoom`](super::SegmentsRoom), and text 25, whatever the answer.
#[derive(Debug, Default)]
pub struct WhyRoom<'a> {
    /// Takes the prefix sums.
    pub sums: &'a mut [f64],
    /// The stored records as in [`SegmentsRoom`](super::SegmentsRoom).
    pub rows: &'a mut [usize],
    /// The gain of each of them.
    pub gains: &'a mut [f64],
    /// Takes the text of a cut's origin.
    pub text: &'a mut [u8],
}

/// Why the tree that [`tree`](super::tree) grows is cut at the row, or is not. Sums, rows and gains are left as by
/// [`stored_segments`](super::stored_segments). Of the text a cut writes the first `length` bytes, and no other answer any. Reads m,
/// closed, threshold and forbidden. Refusals: 1, 2, 3 (threshold), 4, 5, 6, 7, 8 (draws, row).
pub fn why(matrix: Matrix, settings: &Settings, lists: Lists, row: usize, room: WhyRoom) -> Result<Why, Refusal> {
    let barred = settings.barred();
    let mut told = Told::default();
    let no = unsafe {
        ffi::changeforest_why(
            matrix.cells.as_ptr(),
            matrix.cells.len(),
            matrix.rows,
            matrix.columns,
            settings.m,
            settings.closed,
            settings.threshold,
            barred.as_ptr(),
            barred.len(),
            lists.layers.as_ptr(),
            lists.layers.len(),
            lists.draws.as_ptr(),
            lists.draws.len(),
            lists.most,
            row,
            room.sums.as_mut_ptr(),
            room.sums.len(),
            room.rows.as_mut_ptr(),
            room.rows.len(),
            room.gains.as_mut_ptr(),
            room.gains.len(),
            room.text.as_mut_ptr(),
            room.text.len(),
            &mut told.reason,
            &mut told.start,
            &mut told.stop,
            &mut told.kind,
            &mut told.number,
            &mut told.length,
            &mut told.a,
            &mut told.b,
            &mut told.gain,
        )
    };
    unless(no, told).map(Told::why)
}

/// The outputs, as the header has them.
#[derive(Default)]
struct Told {
    reason: u32,
    start: usize,
    stop: usize,
    kind: usize,
    number: usize,
    length: usize,
    a: usize,
    b: usize,
    gain: f64,
}

impl Told {
    fn why(self) -> Why {
        let Told { reason, start, stop, kind, number, length, a, b, gain } = self;
        match reason {
            0 => Why::Cut { origin: Origin::told(kind, number), length, start, stop },
            1 => Why::TooNear { start, stop },
            2 => Why::Barred { a, b, start, stop },
            3 => Why::NoNumber { start, stop },
            4 => Why::NotAbove { gain, start, stop },
            _ => unreachable!("the library has five reasons"),
        }
    }
}
