//! Where a record comes from, in the words of an answer.

#[derive(Clone, Copy, PartialEq, Eq)]
pub enum Origin {
    Direct,
    /// Numbered from 1.
    Layer(usize),
    /// Numbered from 0.
    Draw(usize),
    /// A kind and a number that tell none of these.
    Unknown(usize, usize),
}

impl Origin {
    /// As `why` tells it, and the programs.
    pub fn text(self) -> String {
        match self {
            Origin::Direct => "direct".into(),
            Origin::Layer(number) => format!("layer {number}"),
            Origin::Draw(number) => format!("draw {number}"),
            Origin::Unknown(kind, number) => format!("unknown-kind:{kind},{number}"),
        }
    }

    /// As nodes and records have it, in one word.
    pub(crate) fn word(self) -> String {
        self.text().replace(' ', "")
    }
}
