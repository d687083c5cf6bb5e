//! Cases at a limit.

use crate::seen::Seen;
use crate::Counts;
use protocol::{Case, Close, Feed, Grown, Knn, Lists, Lot, Order, Perm, State};

impl Counts {
    /// Of the admitted cases at a limit, how many have each size.
    pub fn limits(&mut self, seen: &Seen, wide: bool) {
        if !seen.admitted() {
            return;
        }
        let kind = seen.kind();
        let list = seen.entries().map(|entries| match wide {
            false => [(258..=2_048).contains(&entries), entries == 2_048],
            true => [(2_050..=100_000).contains(&entries), entries == 100_000],
        });
        let grown = seen.grown();
        if let Some(matrix) = seen.matrix() {
            let table = &mut self.limits;
            let size = |n, d| (matrix.n, matrix.d) == (n, d);
            let label = "4,096 rows of 2, 3, 4, 8 columns";
            table.sized(seen, wide, label, Some([2, 3, 4, 8].map(|d| size(4_096, d))));
            table.sized(seen, wide, "4,096 rows of 57 columns", Some([size(4_096, 57)]));
            table.sized(seen, wide, "3,674 rows of 64 columns", Some([size(3_674, 64)]));
            let columns = [(58..64).any(|d| size(4_096, d)), size(4_096, 64)];
            table.sized(seen, wide, "wide: 4,096 rows of 58 to 63 columns; of 64", Some(columns));
            let label = "forbidden lists of 258 to 2,048 entries; those of 2,048";
            table.sized(seen, wide, label, list);
            table.sized(seen, wide, "wide: of 2,050 to 100,000; those of 100,000", list);
            let drawn = seen.stored().filter(|_| kind != "tree");
            let draws = drawn.map(|stored| stored.lists.draws.len() / 2);
            table.sized(seen, wide, "4,096 draws", draws.map(|draws| [draws == 4_096]));
            let left = |grown: &Grown| [grown.stored == 4_096 && draws > Some(0)];
            let leave = grown.as_ref().filter(|_| draws.is_some()).map(left);
            table.sized(seen, wide, "draws that leave 4,096 records", leave);
            let many = draws.map(|draws| [draws > 4_096, draws == 100_000]);
            table.sized(seen, wide, "wide: more than 4,096 draws; 100,000", many);
            let records = grown.as_ref().map(|grown| grown.records.len());
            let many = records.map(|records| [records > 16_384, records > 250_000]);
            table.sized(seen, wide, "more than 16,384 records; more than 250,000", many);
            table.sized(seen, wide, "wide: more than 16,384 records; more than 250,000", many);
            let t = seen.stored().map(|stored| layered(&stored.lists));
            let many = t.map(|t| [t > 262_144, t == 524_224]);
            table.sized(seen, wide, "wide: T above 262,144; T = 524,224", many);
        }
        let label = |label: &str| format!("{}{kind}: {label}", if wide { "wide " } else { "" });
        let table = &mut self.sentences;
        match &seen.line.case {
            Case::Cand(_) | Case::Guesses(_) | Case::Pick(_) => {
                table.some("", &label("long forbidden lists; of the greatest length"), list);
            }
            Case::Order(Order { matrix }) | Case::Knn(Knn { matrix, .. }) => {
                let hold = [(513..1_024).contains(&matrix.n), matrix.n == 1_024];
                table.count("", &label("513 to 1,023 rows; 1,024"), hold);
            }
            Case::Perm(Perm { p: 999, deltas, .. }) => {
                let length = deltas[0].len();
                let long = (263..=4_096).contains(&length);
                let hold = [true, (17..=262).contains(&length), long, length == 4_096];
                let text = "P = 999; of these L from 17 to 262; from 263 to 4,096; 4,096";
                table.count("", &label(text), hold);
            }
            Case::Tree(_) | Case::Wild(_) => {
                let nodes = grown.map_or(0, |grown| grown.nodes.len());
                table.count("", "tree, wild: 8,189 nodes; 8,191", [nodes == 8_189, nodes == 8_191]);
            }
            Case::FedTree(_) => {
                let nodes = grown.map_or(0, |grown| grown.nodes.len());
                table.count("", "fedtree: 8,189 nodes; 8,191", [nodes == 8_189, nodes == 8_191]);
            }
            Case::Feed(Feed { n, d, steps, .. }) => {
                let full = [(4_096, 28), (1_830, 64), (4_096, 64)].map(|size| (*n, *d) == size);
                let text = "4,096 rows of 28 columns; 1,830 of 64; 4,096 of 64";
                table.count("", &label(text), full);
                table.count("", &label("1,024 lots"), [steps.len() == 1_024]);
            }
            Case::Lot(Lot { state: State { n, d, .. }, .. })
            | Case::Close(Close { state: State { n, d, .. } }) => {
                let full = [(4_096, 57), (3_674, 64), (4_096, 64)].map(|size| (*n, *d) == size);
                let text = "4,096 rows of 57 columns; 3,674 of 64; 4,096 of 64";
                table.count("", &label(text), full);
            }
            _ => (),
        }
    }
}

/// "T the layers' counts summed".
fn layered(lists: &Lists) -> usize {
    let count = |v: &f64| 2 * ((1.0 / v) as f32).ceil() as usize - 1;
    lists.layers.iter().map(count).sum()
}
