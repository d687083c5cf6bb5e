//! Cases with the closed end on.

use crate::seen::{number, parts, Seen};
use crate::Counts;
use protocol::{Case, Grown, Guesses, Perm, Pick, Shortest, Stored, Tree};

impl Counts {
    /// With the closed end on, how many are as long as can just be split, and beside it.
    pub fn closed(&mut self, seen: &Seen) {
        let segment = seen.segment().map(|one| (one.shortest.m, one.start, one.stop));
        let ends = match &seen.line.case {
            Case::Perm(Perm { shortest, deltas, .. }) => {
                Some((shortest.m, 0, deltas.first().map_or(0, Vec::len)))
            }
            _ => segment,
        };
        if let Some((m, start, stop)) = ends {
            let [length, twice] = [stop as i128 - start as i128, 2 * m as i128];
            for (label, than) in [("L = 2m", 0), ("L = 2m-1", -1), ("L = 2m+1", 1)] {
                self.lengths.count(seen.kind(), label, [length == twice + than]);
            }
        }
        let table = &mut self.sentences;
        match &seen.line.case {
            Case::Guesses(Guesses { segment }) => {
                let two = segment.start.checked_add(2) == Some(segment.stop);
                let two = two && segment.shortest.m == 1;
                let hold = [two, two && segment.forbidden.is_none()];
                table.count("", "closed guesses: of two rows with m = 1; without a list", hold);
            }
            Case::Pick(Pick { segment, guess, .. }) if seen.admitted() => {
                let last = segment.stop - segment.shortest.m;
                let split = number(parts::<4>(&seen.answer, ' ')[1]);
                let label = "closed pick: admitted; that take stop-m; whose guess is that row";
                table.count("", label, [true, split == last, *guess == last]);
            }
            Case::Tree(Tree { stored: Stored { matrix, shortest, .. }, .. }) => {
                if let Some(Grown { nodes, cuts, .. }) = seen.grown() {
                    let open = Shortest { closed: false, ..*shortest };
                    let gap = cuts.last().is_some_and(|last| matrix.n - last == shortest.m);
                    let all = !cuts.is_empty() && nodes.len() == most_nodes(matrix.n, *shortest);
                    let more = nodes.len() > most_nodes(matrix.n, open);
                    let hold = [true, !cuts.is_empty(), gap, all, more];
                    let label =
                        "closed tree: admitted; cut; of these a last gap of m; B nodes; more";
                    table.count("", label, hold);
                }
                if seen.answer.starts_with("refused") {
                    let lowest = seen.verdict.lowest().expect("a number");
                    table.count("", &format!("closed tree: refused {lowest}"), [true]);
                }
            }
            _ => (),
        }
    }
}

/// How many nodes a tree can have.
fn most_nodes(n: usize, Shortest { m, closed }: Shortest) -> usize {
    (2 * ((n - usize::from(!closed)) / m)).saturating_sub(1).max(1)
}
