//! How much a line may hold and lend: the capacities of docs/REPLAY.md, as they are and wide.

#[derive(Clone, Copy)]
pub struct Capacities {
    /// Bytes, LF included.
    pub(crate) line: usize,
    pub(crate) cells: usize,
    /// Of a run, whose cells count together; the word `close` counts as one.
    pub(crate) lots: usize,
    pub(crate) sums: usize,
    pub(crate) permutations: usize,
    pub(crate) forbidden: usize,
    pub(crate) layers: usize,
    /// Numbers, two a draw.
    pub(crate) draws: usize,
    /// Of a curve, candidates and predictions.
    pub(crate) curve: usize,
    /// Of records, nodes and cuts.
    pub(crate) records: usize,
    /// Of a matrix whose neighbours are ordered.
    pub(crate) rows: usize,
}

impl Capacities {
    pub const PAGE: Capacities = Capacities {
        line: 4_000_000,
        cells: 262_144,
        lots: 1_024,
        sums: 262_144,
        permutations: 262_144,
        forbidden: 2_048,
        layers: 100,
        draws: 8_192,
        curve: 4_097,
        records: 262_144,
        rows: 1_024,
    };

    /// Room for every size of document 01, with a closed end too: 4,097*64 sums, 999*4,096 permutation
    /// entries, 64*8,191 stored records and 8,191 more. Forbidden lists and draw lists have no size.
    pub const WIDE: Capacities = Capacities {
        line: 128_000_000,
        sums: 262_208,
        permutations: 4_096_000,
        forbidden: 100_000,
        draws: 200_000,
        records: 600_000,
        ..Capacities::PAGE
    };

    /// `--wide` is an argument of the programs; without arguments they read the page's.
    pub fn named(arguments: &[&str]) -> Option<Capacities> {
        match arguments {
            [] => Some(Capacities::PAGE),
            ["--wide"] => Some(Capacities::WIDE),
            _ => None,
        }
    }
}
