//! A case that was answered, and what its answer's words say.

use crate::rules::{judge, Verdict};
use protocol::{
    value, Cand, Capacities, Case, FedTree, Gain, Grown, Guesses, Line, Matrix, Node, Origin, Pick,
    Record, Search, Segment, Stored, Tree, Why, Wild,
};

/// A case, every number that applies to it, and its answer.
pub struct Seen {
    pub line: Line,
    pub verdict: Verdict,
    pub answer: String,
}

impl Seen {
    pub fn of(line: &[u8], capacities: Capacities, answer: String) -> Option<Seen> {
        let line = Line::read(line, capacities)?;
        let verdict = judge(&line.case, line.lends_too_little());
        Some(Seen { line, verdict, answer })
    }

    pub fn admitted(&self) -> bool {
        self.answer.starts_with("ok ")
    }

    pub fn kind(&self) -> &'static str {
        match &self.line.case {
            Case::Cand(_) => "cand",
            Case::Gain(_) => "gain",
            Case::Search(_) => "search",
            Case::Stored(_) => "stored",
            Case::Tree(_) => "tree",
            Case::Wild(_) => "wild",
            Case::Why(_) => "why",
            Case::Feed(_) => "feed",
            Case::Lot(_) => "lot",
            Case::Close(_) => "close",
            Case::FedTree(_) => "fedtree",
            Case::Order(_) => "order",
            Case::Knn(_) => "knn",
            Case::Pick(_) => "pick",
            Case::Guesses(_) => "guesses",
            Case::Perm(_) => "perm",
            _ => "another",
        }
    }

    pub fn numbers(&self) -> Vec<usize> {
        (1..=14).filter(|number| self.verdict.says(*number)).collect()
    }

    pub fn alone(&self, number: usize) -> bool {
        self.numbers() == [number]
    }

    pub fn stored(&self) -> Option<&Stored> {
        match &self.line.case {
            Case::Stored(stored)
            | Case::Tree(Tree { stored, .. })
            | Case::Wild(Wild(Tree { stored, .. }))
            | Case::Why(Why { tree: Tree { stored, .. }, .. })
            | Case::FedTree(FedTree { tree: Tree { stored, .. }, .. }) => Some(stored),
            _ => None,
        }
    }

    pub fn segment(&self) -> Option<&Segment> {
        match &self.line.case {
            Case::Cand(Cand { segment })
            | Case::Search(Search { segment, .. })
            | Case::Pick(Pick { segment, .. })
            | Case::Guesses(Guesses { segment }) => Some(segment),
            _ => None,
        }
    }

    pub fn matrix(&self) -> Option<&Matrix> {
        match &self.line.case {
            Case::Gain(Gain { matrix, .. }) | Case::Search(Search { matrix, .. }) => Some(matrix),
            _ => self.stored().map(|stored| &stored.matrix),
        }
    }

    /// The entries of the forbidden list, of a kind that takes one.
    pub fn entries(&self) -> Option<usize> {
        let of_segment = self.segment().map(|segment| &segment.forbidden);
        let list = of_segment.or(self.stored().map(|stored| &stored.forbidden))?;
        Some(list.as_ref().map_or(0, Vec::len))
    }

    /// The tree and the records of an answer, of `stored` the records alone.
    pub fn grown(&self) -> Option<Grown> {
        let mut words = self.answer.strip_prefix("ok ")?.split(' ');
        let mut grown = Grown { stored: 0, nodes: vec![], cuts: vec![], records: vec![] };
        match &self.line.case {
            Case::Stored(_) => (),
            Case::Tree(_) | Case::Wild(_) | Case::FedTree(_) => {
                words.find(|word| *word == "nodes");
                grown.nodes = listed(&mut words, node);
                words.next();
                grown.cuts = listed(&mut words, number);
                words.next();
            }
            _ => return None,
        }
        grown.records = listed(&mut words, record);
        grown.stored = grown.records.iter().filter(|one| one.origin != Origin::Direct).count();
        Some(grown)
    }
}

pub fn number(word: &str) -> usize {
    word.parse().expect("a number")
}

fn listed<'a, T>(words: &mut impl Iterator<Item = &'a str>, read: fn(&str) -> T) -> Vec<T> {
    let count = number(words.next().expect("a count"));
    words.take(count).map(read).collect()
}

pub fn parts<const N: usize>(word: &str, by: char) -> [&str; N] {
    word.split(by).collect::<Vec<_>>().try_into().expect("as many parts as the page says")
}

fn origin(word: &str) -> Origin {
    match (word.strip_prefix("layer"), word.strip_prefix("draw")) {
        (Some(layer), _) => Origin::Layer(number(layer)),
        (_, Some(draw)) => Origin::Draw(number(draw)),
        _ => Origin::Direct,
    }
}

fn made([start, stop, split, gain, from]: [&str; 5]) -> Record {
    let [start, stop, split] = [start, stop, split].map(number);
    Record { start, stop, split, gain: value(gain.as_bytes()).expect("bits"), origin: origin(from) }
}

fn record(word: &str) -> Record {
    made(parts(word, ','))
}

fn node(word: &str) -> Node {
    let [ends, choice, below] = parts(word, ':');
    let [start, stop, significant] = parts(ends, ',').map(number);
    let choice = (choice != "-").then(|| {
        let [split, gain, start, stop, from] = parts(choice, ',');
        made([start, stop, split, gain, from])
    });
    Node {
        start,
        stop,
        significant: significant == 1,
        choice,
        parts: parts(below, ',').map(number),
    }
}
