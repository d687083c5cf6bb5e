//! What the files of tests share; not each uses all of it.
#![allow(dead_code)]
use haspgarnet_changeforest::{Matrix, Node, Record, Refusal, Settings, Split, Tree};
use std::fmt::Debug;

pub fn column(cells: &[f64]) -> Matrix<'_> {
    Matrix { cells, rows: cells.len(), columns: 1 }
}

pub fn with_m(m: usize) -> Settings<'static> {
    Settings { m, ..Settings::default() }
}

pub fn place(found: Split) -> (usize, f64) {
    (found.split, found.gain)
}

pub fn fields(record: &Record) -> (usize, usize, usize, f64) {
    (record.start, record.stop, record.split, record.gain)
}

pub fn choice(node: &Node) -> Option<(usize, usize, usize, f64)> {
    node.choice().as_ref().map(fields)
}

/// All of a tree but where its records come from.
pub fn without_origins(tree: &Tree) -> impl PartialEq + Debug {
    let node = |node: &Node| (node.start, node.stop, node.significant, choice(node), node.left, node.right);
    let nodes: Vec<_> = tree.nodes.iter().map(node).collect();
    let records: Vec<_> = tree.records.iter().map(fields).collect();
    (nodes, records, tree.cuts.clone(), tree.stored)
}

pub fn number<T: Debug>(answer: Result<T, Refusal>) -> u32 {
    answer.unwrap_err().number()
}
