//! Draws, and what becomes of each.

use crate::rules::{judge, pairs};
use crate::seen::Seen;
use crate::Counts;
use protocol::{Cand, Case, Grown, Lists, Node, Origin, Record, Segment, Stored};

/// What becomes of a draw that is reached.
#[derive(Clone, Copy, PartialEq)]
enum Fate {
    PassedOver,
    TooShort,
    Barred,
    Answers,
}

/// Of each draw, as if it were, by the rules.
fn fates(case: &Stored) -> Vec<Fate> {
    let Stored { matrix, shortest, forbidden, lists } = case;
    let forbidden = forbidden.clone();
    let mut segment = Segment { n: matrix.n, shortest: *shortest, forbidden, start: 0, stop: 0 };
    let mut fates = vec![];
    for draw in lists.draws.chunks_exact(2) {
        (segment.start, segment.stop) = (draw[0], draw[1]);
        let searched = Case::Cand(Cand { segment });
        let verdict = judge(&searched, false);
        fates.push(match draw[0] < draw[1] {
            false => Fate::PassedOver,
            true if verdict.says(9) => Fate::TooShort,
            true if verdict.says(10) => Fate::Barred,
            true => Fate::Answers,
        });
        let Case::Cand(cand) = searched else { unreachable!() };
        segment = cand.segment;
    }
    fates
}

impl Counts {
    /// Of the kinds that take draws.
    pub fn draws(&mut self, seen: &Seen, column: &'static str) {
        let Some(case) = seen.stored() else { return };
        let Lists { layers, draws, w } = &case.lists;
        let (n, w, some) = (case.matrix.n, *w, !draws.is_empty());
        let table = &mut self.draws;
        let ends = || draws.chunks_exact(2).map(|draw| (draw[0], draw[1]));
        if let Some(Grown { nodes, records, .. }) = seen.grown() {
            let drawn = |one: &Record| matches!(one.origin, Origin::Draw(_));
            let stored: Vec<Record> = records.into_iter().filter(drawn).collect();
            let fates = fates(case);
            let answer = fates.iter().filter(|fate| **fate == Fate::Answers).count();
            let first = fates.iter().zip(0..).filter(|(fate, _)| **fate == Fate::Answers).take(w);
            let numbers: Vec<usize> = first.map(|(_, number)| number).collect();
            let told = stored.iter().map(|one| one.origin);
            let same = told.eq(numbers.iter().map(|number| Origin::Draw(*number)));
            assert!(same, "the first W draws that answer are stored");
            let reached = match numbers.last() {
                Some(last) if numbers.len() == w => &fates[..=*last],
                _ if w == 0 => &[],
                _ => &fates[..],
            };
            let any = |fate| reached.contains(&fate);
            table.count(column, "admitted", [true]);
            table.count(column, "with draws", [some]);
            table.count(column, "with layers", [!layers.is_empty()]);
            table.count(column, "with neither", [!some && layers.is_empty()]);
            table.count(column, "without draws, W above 0", [!some && w > 0]);
            table.count(column, "with draws, W = 0", [some && w == 0]);
            table.count(column, "W below the draws that answer, above 0", [0 < w && w < answer]);
            table.count(column, "W equal to them", [0 < w && w == answer]);
            table.count(column, "W above them", [0 < answer && answer < w]);
            table.count(column, "W above 0, and none answers", [some && 0 < w && answer == 0]);
            table.count(column, "W = 4,096", [some && w == 4_096]);
            let passed = any(Fate::PassedOver) && !stored.is_empty();
            table.count(column, "some passed over, some stored", [passed]);
            let past = ends().any(|(start, _)| start > n);
            table.count(column, "a start past n, passed over", [past]);
            let short = any(Fate::TooShort) && !stored.is_empty();
            table.count(column, "some too short, some stored", [short]);
            table.count(column, "some barred", [any(Fate::Barred)]);
            let mut places: Vec<_> = stored.iter().map(|one| (one.start, one.stop)).collect();
            places.sort();
            let twice = places.windows(2).any(|two| two[0] == two[1]);
            table.count(column, "one stored twice", [twice]);
            let nan = stored.iter().any(|one| one.split == 0);
            table.count(column, "one stored whose gains are all NaN", [nan]);
            let infinite = stored.iter().any(|one| one.gain == f64::INFINITY);
            table.count(column, "one stored with an infinite gain", [infinite]);
            let last = stored.iter().any(|one| one.stop == n);
            table.count(column, "one stored with stop = n", [last]);
            let chosen = |node: &&Node| node.choice.as_ref().is_some_and(drawn);
            let mut chosen = nodes.iter().filter(chosen).peekable();
            let grown = !nodes.is_empty();
            let choice = grown.then_some([chosen.peek().is_some()]);
            table.some(column, "a choice is a draw's record", choice);
            let cut = grown.then_some([chosen.any(|node| node.significant)]);
            table.some(column, "a cut by a draw's record", cut);
            return;
        }
        *self.together.entry(column).or_default().entry(seen.numbers()).or_default() += 1;
        let table = &mut self.refused_draws;
        let odd = seen.alone(5) && draws.len() % 2 == 1;
        let even = case.forbidden.as_ref().is_none_or(|list| list.len() % 2 == 0);
        let listed = even && pairs(&case.forbidden).all(|(a, b)| a <= b);
        table.count(column, "5 alone, by odd draws", [odd && listed]);
        let both = some && !layers.is_empty();
        let in_range = |v: &f64| (1.0 / 4096.0..1.0).contains(v);
        let six = seen.alone(6) && layers.len() <= 64 && layers.iter().all(in_range);
        table.count(column, "6 alone, by layers and draws", [six && both && w <= 4_096]);
        let most = six && !both && w > 4_096;
        table.count(column, "6 alone, by W, with draws", [most && some]);
        table.count(column, "6 alone, by W, without draws", [most && !some]);
        let eight = seen.alone(8);
        table.count(column, "8 alone", [eight]);
        let beside = eight && ends().any(|(_, stop)| stop == n + 1);
        table.count(column, "of these a stop of n+1", [beside]);
        let passed = eight && ends().all(|(start, stop)| stop <= n || start >= stop);
        table.count(column, "of these only draws that are passed over", [passed]);
        let behind = eight && {
            let first = ends().position(|(_, stop)| stop > n).expect("a draw is outside");
            let before = fates(case).into_iter().take(first);
            before.filter(|fate| *fate == Fate::Answers).count() >= w
        };
        table.count(column, "of these behind W records", [behind]);
    }
}
