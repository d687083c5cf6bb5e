//! Calls of the original Rust: one function for each kind of case, and what it refuses by itself.

use changeforest::classifier::kNN;
use changeforest::gain::{
    gain_from_likelihoods, ApproxGain, ApproxGainResult, ChangeInMean, GainResult,
};
use changeforest::optimizer::{GridSearch, OptimizerResult, TwoStepSearch};
use changeforest::utils::{self, LAST_DISTANCES, LENT_CURVES};
use changeforest::{
    BinarySegmentationResult, BinarySegmentationTree, Classifier, ClassifierGain, Control, Gain,
    ModelSelectionResult, Optimizer, Segmentation, SegmentationType,
};
use ndarray::{Array1, Array2, ArrayView2};
use protocol::{
    Cand, Case, FedTree, Forbidden, Grown, Guesses, Matrix, Node, Origin, Perm, Pick, Record, Rel,
    Search, Segment, Shortest, Stored, Tree, Why, Wild,
};
use std::panic::catch_unwind;

/// The least that the traits ask for: a run of n rows, its settings and a lent gain curve.
struct Run {
    n: usize,
    control: Control,
    curve: Vec<f64>,
}

impl Optimizer for Run {
    fn n(&self) -> usize {
        self.n
    }
    fn control(&self) -> &Control {
        &self.control
    }
    fn find_best_split(&self, _: usize, _: usize) -> Result<OptimizerResult, &str> {
        unreachable!()
    }
    fn model_selection(&self, _: &OptimizerResult) -> ModelSelectionResult {
        unreachable!()
    }
}

impl Gain for Run {
    fn n(&self) -> usize {
        self.n
    }
    fn control(&self) -> &Control {
        &self.control
    }
    fn model_selection(&self, _: &OptimizerResult) -> ModelSelectionResult {
        unreachable!()
    }
}

impl ApproxGain for Run {
    fn gain_approx(
        &self,
        start: usize,
        stop: usize,
        guess: usize,
        _: &[usize],
    ) -> ApproxGainResult {
        ApproxGainResult {
            start,
            stop,
            guess,
            gain: Array1::from_vec(self.curve.clone()),
            max_gain: None,
            best_split: None,
            likelihoods: Array2::zeros((2, 0)),
            predictions: Array1::zeros(0),
        }
    }
}

impl Classifier for Run {
    fn n(&self) -> usize {
        self.n
    }
    fn control(&self) -> &Control {
        &self.control
    }
    fn predict(&self, _: usize, _: usize, _: usize) -> Array1<f64> {
        unreachable!()
    }
}

fn pairs(forbidden: &Forbidden) -> Option<Vec<(usize, usize)>> {
    let pair = |pair: &[usize]| (pair[0], pair[1]);
    forbidden.as_ref().map(|list| list.chunks_exact(2).map(pair).collect())
}

fn control(shortest: Shortest, forbidden: &Forbidden) -> Control {
    let mut control = Control::default().with_forbidden_segments(pairs(forbidden));
    (control.whole_m, control.closed_end) = (Some(shortest.m), shortest.closed);
    control
}

fn run(segment: &Segment) -> Run {
    let control = control(segment.shortest, &segment.forbidden);
    Run { n: segment.n, control, curve: vec![] }
}

fn view(matrix: &Matrix) -> ArrayView2<'_, f64> {
    ArrayView2::from_flat((matrix.n, matrix.d), &matrix.cells)
}

fn record(result: &OptimizerResult) -> Record {
    let (start, stop) = (result.start, result.stop);
    let origin = match result.origin {
        utils::Origin::Direct => Origin::Direct,
        utils::Origin::Layer(number) => Origin::Layer(number),
        utils::Origin::Draw(number) => Origin::Draw(number),
    };
    Record { start, stop, split: result.best_split, gain: result.max_gain, origin }
}

/// The candidates, or the number that the Rust's own refusal has here.
fn candidates(run: &Run, start: usize, stop: usize) -> Result<Vec<usize>, usize> {
    let number = |why: &str| if why.starts_with("Segment too small") { 9 } else { 10 };
    run.split_candidates(start, stop).map_err(number)
}

/// The candidates where a relative length gives m.
pub fn relative(r: f64, n: usize, start: usize, stop: usize) -> Result<Vec<usize>, usize> {
    let control = Control::default().with_minimal_relative_segment_length(r);
    candidates(&Run { n: n, control, curve: vec![] }, start, stop)
}

/// m of a relative length: the first candidate of a segment that is long enough for every m.
pub fn rel(r: f64, n: usize) -> usize {
    relative(r, n, 0, 8_194).expect("2*m is at most 8,192")[0]
}

pub fn cand(segment: &Segment) -> Result<Vec<usize>, usize> {
    candidates(&run(segment), segment.start, segment.stop)
}

/// The gain and the prefix sums.
pub fn gain(matrix: &Matrix, start: usize, stop: usize, split: usize) -> (f64, Vec<f64>) {
    let (view, control) = (view(matrix), Control::default());
    let mean = ChangeInMean::new(&view, &control);
    let gain = mean.gain(start, stop, split);
    let sums = mean.get_cumsum().iter().copied().collect();
    (gain, sums)
}

pub fn sums(matrix: &Matrix) -> Vec<f64> {
    gain(matrix, 0, 0, 0).1
}

pub fn search(matrix: &Matrix, segment: &Segment) -> Record {
    let (view, control) = (view(matrix), control(segment.shortest, &segment.forbidden));
    let grid = GridSearch { gain: ChangeInMean::new(&view, &control) };
    let found = grid.find_best_split(segment.start, segment.stop);
    record(&found.expect("an admitted segment has candidates"))
}

/// The settings of a case that stores segments.
fn storing(case: &Stored) -> Control {
    let control = control(case.shortest, &case.forbidden);
    let mut control = control.with_number_of_wild_segments(case.lists.w);
    control.lent_layers = case.lists.layers.clone();
    control
}

/// The lent segments, searched: those drawn (WBS), or those of the layers (SBS). "No layers means BS."
fn segmentation<'a>(case: &Stored, optimizer: &'a dyn Optimizer) -> Segmentation<'a> {
    rand::lend_draws(&case.lists.draws);
    let kind = match (case.lists.draws.is_empty(), case.lists.layers.is_empty()) {
        (false, _) => SegmentationType::WBS,
        (true, false) => SegmentationType::SBS,
        (true, true) => SegmentationType::BS,
    };
    Segmentation::new(kind, optimizer)
}

/// The records stored before a tree is grown.
pub fn stored(case: &Stored) -> Vec<Record> {
    let (view, control) = (view(&case.matrix), storing(case));
    let grid = GridSearch { gain: ChangeInMean::new(&view, &control) };
    segmentation(case, &grid).segments.iter().map(record).collect()
}

pub fn tree(case: &Tree) -> Grown {
    tree_of(case, &case.stored.matrix)
}

pub fn tree_of(case: &Tree, matrix: &Matrix) -> Grown {
    grown(case, matrix, None)
}

/// The tree over sums that are lent. Of a matrix the Rust then looks at nothing but the shape.
pub fn tree_over(case: &Tree, sums: &[f64]) -> Grown {
    let Matrix { n, d, .. } = case.stored.matrix;
    let shape = Matrix { n, d, cells: vec![f64::NAN; n * d] };
    grown(case, &shape, Some(Array2::from_flat((n + 1, d), sums.to_vec())))
}

fn grown(case: &Tree, matrix: &Matrix, lent_sums: Option<Array2<f64>>) -> Grown {
    let view = view(matrix);
    let control = storing(&case.stored).with_minimal_gain_to_split(Some(case.threshold));
    let grid = GridSearch { gain: ChangeInMean::new(&view, &control) };
    grid.gain.X_cumsum.replace(lent_sums);
    let mut segmentation = segmentation(&case.stored, &grid);
    let stored = segmentation.segments.len();
    let mut tree = BinarySegmentationTree::new(&view);
    tree.grow(&mut segmentation);
    let result = BinarySegmentationResult::from_tree(tree);
    let mut nodes = vec![];
    list(&result, &mut nodes);
    let records = segmentation.segments.iter().map(record).collect();
    Grown { stored, nodes, cuts: result.split_points(), records }
}

/// Lists a tree in preorder; places count from 0.
fn list(result: &BinarySegmentationResult, nodes: &mut Vec<Node>) {
    let place = nodes.len();
    nodes.push(Node {
        start: result.start,
        stop: result.stop,
        significant: result.model_selection_result.is_significant,
        choice: result.optimizer_result.as_ref().map(record),
        parts: [0, 0],
    });
    for (side, part) in [&result.left, &result.right].into_iter().enumerate() {
        if let Some(part) = part {
            nodes[place].parts[side] = nodes.len();
            list(part, nodes);
        }
    }
}

/// The ordering, row after row, and the last row's distances.
pub fn order(matrix: &Matrix) -> (Vec<u32>, Vec<f64>) {
    let (view, control) = (view(matrix), Control::default());
    let neighbours = kNN::new(&view, &control);
    let place = |row: &usize| u32::try_from(*row).expect("rows are few");
    let ordering = neighbours.get_ordering().iter().map(place).collect();
    (ordering, LAST_DISTANCES.take())
}

/// The row itself is dropped from its order, as document 02 asks (`changes`).
pub fn knn(matrix: &Matrix, start: usize, stop: usize, split: usize) -> Vec<f64> {
    let (view, control) = (view(matrix), Control::default());
    let neighbours = kNN::new(&view, &control);
    let predictions = neighbours.predict(start, stop, split);
    predictions.iter().copied().collect()
}

pub fn curve(l0: &[f64], l1: &[f64]) -> Vec<f64> {
    gain_from_likelihoods(&Array2::from_rows([l0, l1])).iter().copied().collect()
}

/// The pick over the candidates, from a guess and a lent curve.
pub fn pick(segment: &Segment, guess: usize, curve: &[f64]) -> (usize, f64) {
    let candidates = cand(segment).expect("an admitted segment has candidates");
    let gain = Run { curve: curve.to_vec(), ..run(segment) };
    let (start, stop) = (segment.start, segment.stop);
    let search = TwoStepSearch { gain };
    let best = search._single_find_best_split(start, stop, guess, &candidates);
    (best.best_split().expect("a split is set"), best.max_gain().expect("a gain is set"))
}

/// The guesses: a whole search over an even curve keeps one result for each, then the last one.
pub fn guesses(segment: &Segment) -> Vec<usize> {
    let (start, stop) = (segment.start, segment.stop);
    let gain = Run { curve: vec![0.; stop - start], ..run(segment) };
    let search = TwoStepSearch { gain };
    let found = search.find_best_split(start, stop).expect("an admitted segment has candidates");
    let (_, kept) = found.gain_results.split_last().expect("the search ends in a result");
    kept.iter().map(|result| result.guess().expect("a guess is set")).collect()
}

/// The counter, p and significance of lent permutations of 0..L-1, L being the curves' length.
pub fn perm(case: &Perm) -> (usize, f64, bool) {
    permuted(case, case.deltas[0].len())
}

/// The counter isn't handed out: p*(P+1), rounded, gives it.
pub fn permuted(case: &Perm, l: usize) -> (usize, f64, bool) {
    let control = control(case.shortest, &None)
        .with_model_selection_alpha(case.alpha)
        .with_model_selection_n_permutations(case.p);
    let curves = case.deltas.iter().map(|curve| Array1::from_vec(curve.clone())).collect();
    LENT_CURVES.set(Some((curves, case.bases.clone())));
    rand::lend_permutations(case.perms.chunks_exact(l).map(<[usize]>::to_vec));
    let gain = ClassifierGain { classifier: Run { n: l, control, curve: vec![] } };
    let result = gain.model_selection(&OptimizerResult {
        start: 0,
        stop: l,
        best_split: 0,
        max_gain: case.max,
        gain_results: first_step(l, case.max, case.deltas.len()),
        origin: utils::Origin::Direct,
    });
    let p = result.p_value.expect("a p-value is set");
    let counter = (p * (case.p + 1) as f64).round();
    assert!(counter / (case.p + 1) as f64 == p);
    (counter as usize, p, result.is_significant)
}

/// Results of a first step whose maximum is `max`, and one more, as the search leaves them.
fn first_step(l: usize, max: f64, count: usize) -> Vec<GainResult> {
    let result = GainResult::ApproxGainResult(ApproxGainResult {
        start: 0,
        stop: l,
        guess: 0,
        gain: Array1::zeros(0),
        max_gain: Some(max),
        best_split: None,
        likelihoods: Array2::zeros((2, l)),
        predictions: Array1::zeros(0),
    });
    vec![result; count + 1]
}

/// What the Rust itself says of refusals 2, 3, 5, 9 and 10, where it can be asked: the number and
/// whether it refuses. NaN, for which it has no refusal, and lists of odd length, which it can't be
/// given, are left out (docs/DIFFERENCES.md).
pub fn own(case: &Case) -> Vec<(usize, bool)> {
    match case {
        Case::Rel(Rel { r, .. }) if !r.is_nan() => {
            let set = || Control::default().with_minimal_relative_segment_length(*r);
            vec![(2, catch_unwind(set).is_err())]
        }
        Case::Perm(Perm { alpha, .. }) if !alpha.is_nan() => {
            let set = || Control::default().with_model_selection_alpha(*alpha);
            vec![(3, catch_unwind(set).is_err())]
        }
        Case::Stored(stored)
        | Case::Tree(Tree { stored, .. })
        | Case::Wild(Wild(Tree { stored, .. }))
        | Case::Why(Why { tree: Tree { stored, .. }, .. })
        | Case::FedTree(FedTree { tree: Tree { stored, .. }, .. }) => {
            match odd(&stored.lists.draws) {
                true => vec![],
                false => own_list(&stored.forbidden),
            }
        }
        Case::Cand(Cand { segment })
        | Case::Search(Search { segment, .. })
        | Case::Pick(Pick { segment, .. })
        | Case::Guesses(Guesses { segment }) => {
            let list = own_list(&segment.forbidden);
            match list[..] {
                [(5, false)] => list.into_iter().chain(own_candidates(segment)).collect(),
                _ => list,
            }
        }
        _ => vec![],
    }
}

fn odd(list: &[usize]) -> bool {
    list.len() % 2 == 1
}

fn own_list(forbidden: &Forbidden) -> Vec<(usize, bool)> {
    if forbidden.as_deref().is_some_and(odd) {
        return vec![];
    }
    let pairs = pairs(forbidden);
    let set = || Control::default().with_forbidden_segments(pairs);
    vec![(5, catch_unwind(set).is_err())]
}

/// The Rust takes any ends; it is asked where they are in order and of a size to be listed.
fn own_candidates(segment: &Segment) -> Vec<(usize, bool)> {
    const LONGEST: usize = 100_000;
    let Segment { start, stop, shortest, .. } = *segment;
    if start > stop || stop > LONGEST || shortest.m > LONGEST {
        return vec![];
    }
    let refused = cand(segment).err();
    vec![(9, refused == Some(9)), (10, refused == Some(10))]
}
