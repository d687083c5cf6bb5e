use crate::lent::{nodes, numbers, values, Lent};
use crate::mean::{as_gain_leaves, matrix, sums_of};
use crate::outcome::{agree, no_lower};
use crate::segments::{known, lists, record, segments, settings, stored, Records};
use crate::{Call, Outcome};
use haspgarnet_changeforest::lent::{FedRoom, TreeRoom};
use haspgarnet_changeforest::{lent, owned, Counts, Node, Refusal, Settings};
use protocol::{Capacities, Grown, Kind, Line, Record, Slice, Stored, Tree, Wild};

/// Room for a tree, but for its sums.
pub struct Room {
    records: Records,
    nodes: Lent<Node>,
    cuts: Lent<usize>,
}

impl Room {
    /// For records, nodes and cuts.
    pub fn of([records, most_nodes, cuts]: [usize; 3]) -> Room {
        Room { records: Records::of(records), nodes: nodes(most_nodes), cuts: numbers(cuts) }
    }

    pub fn lend(&mut self) -> FedRoom<'_> {
        FedRoom {
            rows: self.records.rows.slice(),
            gains: self.records.gains.slice(),
            nodes: self.nodes.slice(),
            cuts: self.cuts.slice(),
        }
    }

    fn lend_with<'a>(&'a mut self, sums: &'a mut Lent<f64>) -> TreeRoom<'a> {
        let FedRoom { rows, gains, nodes, cuts } = self.lend();
        TreeRoom { sums: sums.slice(), rows, gains, nodes, cuts }
    }

    /// Whether all entries past those told are as they were, all of them where none is told.
    pub fn kept_past(&self, told: Option<Counts>) -> bool {
        let told = told.map(|told| [told.records, told.nodes, told.cuts]);
        let [records, nodes, cuts] = told.unwrap_or_default();
        self.records.kept_past(records) && self.nodes.kept_past(nodes) && self.cuts.kept_past(cuts)
    }

    pub fn grown(&self, counts: Counts) -> Grown {
        Grown {
            stored: counts.stored,
            nodes: self.nodes.told(counts.nodes).iter().map(node).collect(),
            cuts: self.cuts.told(counts.cuts).to_vec(),
            records: self.records.told(counts.records),
        }
    }
}

fn node(node: &Node) -> protocol::Node {
    protocol::Node {
        start: node.start,
        stop: node.stop,
        significant: node.significant,
        choice: node.choice().as_ref().map(record),
        parts: [node.left, node.right],
    }
}

/// What a call with room of its own answers.
pub fn owned_answer(tree: haspgarnet_changeforest::Tree) -> String {
    Wild::answer(&Grown {
        stored: tree.stored,
        nodes: tree.nodes.iter().map(node).collect(),
        cuts: tree.cuts,
        records: tree.records.iter().map(record).collect(),
    })
}

/// What a lent call answers.
pub fn answer(grown: &Result<Grown, Refusal>) -> Result<String, Refusal> {
    grown.as_ref().map(Wild::answer).map_err(|why| *why)
}

/// Whether it is told of every record and every choice where it comes from.
pub fn all_known(grown: &Result<Grown, Refusal>) -> bool {
    grown.as_ref().ok().is_none_or(|Grown { nodes, records, .. }| {
        known(records.iter().chain(nodes.iter().filter_map(|node| node.choice.as_ref())))
    })
}

/// Whether the call that stores alone answers what the tree begins with. It takes no threshold, and has
/// room enough where nodes or cuts alone are short: where the tree is refused by 3 or 7 it answers, or is
/// refused by no lower number.
fn begins_with(grown: &Result<Grown, Refusal>, stored: &Result<Vec<Record>, Refusal>) -> bool {
    match (grown, stored) {
        (Ok(grown), Ok(stored)) => {
            let first = grown.records.get(..grown.stored);
            first.is_some_and(|first| Stored::answer(first) == Stored::answer(stored))
        }
        (Err(why), stored) if matches!(why.number(), 3 | 7) => no_lower(stored, why.number()),
        (grown, stored) => grown.as_ref().err() == stored.as_ref().err(),
    }
}

/// What a tree is cut with.
pub fn cutting(case: &Tree) -> Settings<'_> {
    Settings { threshold: case.threshold, ..settings(&case.stored) }
}

/// The tree of a case, grown by the lent call in room of its own, as long as is asked.
pub fn grown_apart(case: &Tree) -> Result<Grown, Refusal> {
    let slices = case.lends(&Capacities::WIDE);
    let [sums, records, nodes, cuts] = [0, 1, 2, 3].map(|place| Slice::asked(&slices[place]));
    let (mut sums, mut room) = (values(sums), Room::of([records, nodes, cuts]));
    let (readings, settings) = (matrix(&case.stored.matrix), cutting(case));
    let lending = room.lend_with(&mut sums);
    let counts = lent::tree(readings, &settings, lists(&case.stored), lending);
    counts.map(|counts| room.grown(counts))
}

/// Grows the tree of a case, and tells it in the words of its kind.
fn grown(case: &Tree, line: &Line, words: fn(&Grown) -> String) -> Outcome {
    let (readings, settings) = (matrix(&case.stored.matrix), cutting(case));
    let (mut sums, mut room) =
        (values(line.lent(1)), Room::of([2, 3, 4].map(|number| line.lent(number))));
    let lending = room.lend_with(&mut sums);
    let counts = lent::tree(readings, &settings, lists(&case.stored), lending);
    let told = counts.map_or(0, |_| sums_of(&readings));
    let left = counts.is_err() || as_gain_leaves(readings, sums.told(told));
    let kept = left && sums.kept_past(told) && room.kept_past(counts.ok());
    let grown = counts.map(|counts| room.grown(counts));
    let agrees = segments(&case.stored).is_none_or(|segments| {
        let owned = owned::tree(readings, &settings, segments);
        agree(answer(&grown), owned.map(owned_answer))
    });
    let (stored, stored_kept) = stored(&case.stored, line);
    Outcome {
        kept: kept && all_known(&grown) && stored_kept,
        agrees: agrees && begins_with(&grown, &stored),
        told: grown.map(|grown| words(&grown)),
    }
}

impl Call for Tree {
    fn call(&self, line: &Line) -> Outcome {
        grown(self, line, Tree::answer)
    }
}

impl Call for Wild {
    fn call(&self, line: &Line) -> Outcome {
        grown(&self.0, line, Wild::answer)
    }
}
