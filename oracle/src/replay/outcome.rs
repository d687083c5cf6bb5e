//! What came of a call, and the line that tells it.

use haspgarnet_changeforest::Refusal;
use protocol::Line;

pub const TOO_LARGE: &str = "too large";

pub const NO_ROOM: u32 = 7;

pub struct Outcome {
    /// The answer's values, or why there are none.
    pub told: Result<String, Refusal>,
    /// Whether all lent entries beyond those told are as they were.
    pub kept: bool,
    /// Whether the calls that are run beside it answer the same.
    pub agrees: bool,
}

impl Outcome {
    /// Of a call that takes no room.
    pub fn plain(told: Result<String, Refusal>) -> Outcome {
        Outcome { told, kept: true, agrees: true }
    }

    /// A refusal for want of room that is past its capacity is the page's, not the library's.
    pub fn answer(self, line: &Line) -> String {
        let end = match (self.agrees, self.kept) {
            (false, _) => "disagrees",
            (true, false) => "touched",
            (true, true) => "kept",
        };
        match self.told {
            Ok(values) => format!("ok{values} {end}"),
            Err(why) if why.number() == NO_ROOM && line.asks_too_much() => TOO_LARGE.into(),
            Err(why) => format!("refused {} {end}", why.number()),
        }
    }
}

/// Whether a call answers, or is refused by no number lower than this.
pub fn no_lower<T>(answer: &Result<T, Refusal>, number: u32) -> bool {
    answer.as_ref().err().is_none_or(|why| why.number() >= number)
}

/// Whether the call with room of its own answers what the call over lent room does. It always has
/// room enough: where more was asked than was lent it answers, or finds a refusal that comes later.
pub fn agree<T: PartialEq>(lent: Result<T, Refusal>, owned: Result<T, Refusal>) -> bool {
    match lent {
        Err(why) if why.number() == NO_ROOM => no_lower(&owned, NO_ROOM + 1),
        _ => lent == owned,
    }
}
