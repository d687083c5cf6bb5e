//! Where records come from.

use crate::seen::Seen;
use crate::Counts;
use protocol::{Case, Grown, Node, Origin, Record};

impl Counts {
    /// Where records, choices and cuts come from. A tie: the record of a node by itself and a stored one
    /// inside it both have the greatest gain.
    pub fn origins(&mut self, seen: &Seen, column: &str) {
        let table = &mut self.origins;
        if let (Case::Why(_), Some(cut)) = (&seen.line.case, seen.answer.strip_prefix("ok cut ")) {
            let word = cut.split(' ').nth(2).expect("a text");
            let told = ["direct", "layer", "draw"].map(|kind| word == kind);
            table.count(column, "rows told to be cut: direct; by a layer; by a draw", told);
        }
        let Some(Grown { nodes, records, stored, .. }) = seen.grown() else { return };
        let kind = |origin| match origin {
            Origin::Layer(_) => [false, true, false],
            Origin::Draw(_) => [false, false, true],
            _ => [true, false, false],
        };
        if !nodes.is_empty() {
            let choices = || nodes.iter().filter_map(|node| Some((node, node.choice?)));
            let any = |place: usize| choices().any(|(_, choice)| kind(choice.origin)[place]);
            table.count(column, "admitted trees", [true]);
            table.count(column, "with a choice of a layer; of a draw", [any(1), any(2)]);
            let cut = choices().filter(|(node, _)| node.significant);
            let cut: Vec<_> = cut.map(|(_, choice)| kind(choice.origin)).collect();
            let many = |place| cut.iter().filter(|is| is[place]).count() as u64;
            let label = "cut nodes: direct; a layer's; a draw's";
            table.add(column, label, [0, 1, 2].map(many));
            let (before, direct) = records.split_at(stored);
            let tied = |(node, choice): &(&Node, Record)| {
                let same = |one: &&Record| one.gain == choice.gain;
                let inside = |one: &Record| node.start <= one.start && one.stop <= node.stop;
                let itself = |one: &Record| (one.start, one.stop) == (node.start, node.stop);
                direct.iter().filter(same).any(itself) && before.iter().filter(same).any(inside)
            };
            let ties: Vec<_> = choices().filter(tied).collect();
            let is_direct = |(_, choice): &(&Node, Record)| choice.origin == Origin::Direct;
            let cut = ties.iter().any(|(node, _)| node.significant);
            let label = "with a tie; at a cut node; where a stored record is told";
            table.count(column, label, [!ties.is_empty(), cut, !ties.iter().all(is_direct)]);
        }
        let (mut layers, mut draws, mut behind) = (vec![], vec![], false);
        for (one, place) in records[..stored].iter().zip(0..) {
            match one.origin {
                Origin::Layer(number) => layers.push(number as u64),
                Origin::Draw(number) => {
                    draws.push(number as u64);
                    behind |= number > place;
                }
                _ => unreachable!(),
            }
        }
        let many = [layers.len() as u64, draws.len() as u64];
        table.add(column, "stored records: layers'; draws'", many);
        let greatest = [layers, draws].map(|numbers| numbers.into_iter().max().unwrap_or(0));
        table.most(column, "the greatest number of a layer; of a draw", greatest);
        table.count(column, "a stored draw's number is not its place among them", [behind]);
    }
}
