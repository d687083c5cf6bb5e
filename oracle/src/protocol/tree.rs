//! `tree`, and `wild`, which is that with draws too.

use crate::segments::counted;
use crate::text::{all, bits, rows};
use crate::{Capacities, Fields, Kind, Lists, Record, Slice, Stored};

/// A tree, and what is stored before it is grown.
pub struct Tree {
    pub stored: Stored,
    pub threshold: f64,
}

impl Tree {
    /// N D M THRESHOLD F, the lists that the kind takes, CELLS.
    pub(crate) fn with<'a>(
        fields: &mut Fields<'a>,
        lists: impl FnOnce(&mut Fields<'a>) -> Option<Lists>,
    ) -> Option<Self> {
        let size = fields.size()?;
        let (shortest, threshold) = (fields.shortest()?, fields.value()?);
        Some(Tree { stored: Stored::after_m(fields, size, shortest, lists)?, threshold })
    }
}

impl Kind for Tree {
    /// N D M THRESHOLD F LAYERS CELLS
    fn read(fields: &mut Fields) -> Option<Self> {
        Tree::with(fields, Fields::layers)
    }

    /// Sums, records, nodes, cuts.
    fn lends(&self, capacities: &Capacities) -> Vec<Slice> {
        let Stored { matrix, shortest, lists, .. } = &self.stored;
        let grown = capacities.grown(matrix.n, *shortest, lists);
        [capacities.sums(matrix)].into_iter().chain(grown).collect()
    }
}

pub struct Wild(pub Tree);

impl Kind for Wild {
    /// N D M THRESHOLD F LAYERS DRAWS W CELLS
    fn read(fields: &mut Fields) -> Option<Self> {
        Tree::with(fields, Fields::lists).map(Wild)
    }

    fn lends(&self, capacities: &Capacities) -> Vec<Slice> {
        self.0.lends(capacities)
    }
}

#[derive(Clone, Copy)]
pub struct Node {
    pub start: usize,
    pub stop: usize,
    pub significant: bool,
    pub choice: Option<Record>,
    pub parts: [usize; 2],
}

/// A grown tree: how many of its records were there before, its nodes in preorder, its sheet, its
/// records in the order stored.
pub struct Grown {
    pub stored: usize,
    pub nodes: Vec<Node>,
    pub cuts: Vec<usize>,
    pub records: Vec<Record>,
}

impl Tree {
    pub fn answer(grown: &Grown) -> String {
        let Grown { nodes, cuts, records, .. } = grown;
        let nodes = format!(" nodes {}{}", nodes.len(), all(nodes, node));
        let cuts = format!(" cuts {}{}", cuts.len(), rows(cuts));
        let records = format!(" records{}", counted(records));
        nodes + &cuts + &records
    }
}

impl Wild {
    pub fn answer(grown: &Grown) -> String {
        format!(" stored {}{}", grown.stored, Tree::answer(grown))
    }
}

fn node(node: Node) -> String {
    let choice = |r: Record| {
        let (gain, origin) = (bits(r.gain), r.origin.word());
        format!("{},{gain},{},{},{origin}", r.split, r.start, r.stop)
    };
    let choice = node.choice.map_or("-".into(), choice);
    let significant = u8::from(node.significant);
    let [left, right] = node.parts;
    format!("{},{},{significant}:{choice}:{left},{right}", node.start, node.stop)
}
