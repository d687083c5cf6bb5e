//! A stand-in for the few forms of the crate `ndarray` that the text uses: flat rows, whole or
//! cut along them. Sums run left to right from 0. Indexing and cutting out of range panic.

use std::ops::{
    Add, AddAssign, Bound, Index, IndexMut, Range, RangeBounds, RangeFrom, RangeFull, Sub,
};

/// The cuts of `s![..]` are kept as they are written, in a tuple.
#[macro_export]
macro_rules! s {
    ($($cut:expr),+) => { ($($cut,)+) };
}

pub struct Axis(pub usize);

pub struct Array;

#[derive(Clone, Debug)]
pub struct Array1<T>(Vec<T>);

#[derive(Clone, Debug)]
pub struct Array2<T> {
    shape: [usize; 2],
    values: Vec<T>,
}

pub struct ArrayView1<'a, T>(&'a [T]);

pub struct ArrayView2<'a, T> {
    shape: [usize; 2],
    values: &'a [T],
}

pub struct ArrayViewMut1<'a, T>(&'a mut [T]);

pub struct ArrayViewMut2<'a, T>(&'a mut [T]);

/// The ends of a cut of something `length` long.
fn ends(cut: &impl RangeBounds<usize>, length: usize) -> Range<usize> {
    let start = match cut.start_bound() {
        Bound::Included(start) => *start,
        Bound::Unbounded => 0,
        Bound::Excluded(_) => unimplemented!(),
    };
    let stop = match cut.end_bound() {
        Bound::Excluded(stop) => *stop,
        Bound::Unbounded => length,
        Bound::Included(_) => unimplemented!(),
    };
    assert!(start <= stop && stop <= length);
    start..stop
}

/// A cut of a matrix: which entries it takes, and what it shows of them.
pub trait Cut2<'a, T: 'a> {
    type View;
    type ViewMut;
    fn range(&self, shape: [usize; 2]) -> Range<usize>;
    fn view(&self, values: &'a [T], columns: usize) -> Self::View;
    fn view_mut(&self, values: &'a mut [T]) -> Self::ViewMut;
}

/// A part of one row.
impl<'a, T: 'a, R: RangeBounds<usize>> Cut2<'a, T> for (usize, R) {
    type View = ArrayView1<'a, T>;
    type ViewMut = ArrayViewMut1<'a, T>;
    fn range(&self, shape: [usize; 2]) -> Range<usize> {
        assert!(self.0 < shape[0]);
        let columns = ends(&self.1, shape[1]);
        self.0 * shape[1] + columns.start..self.0 * shape[1] + columns.end
    }
    fn view(&self, values: &'a [T], _: usize) -> Self::View {
        ArrayView1(values)
    }
    fn view_mut(&self, values: &'a mut [T]) -> Self::ViewMut {
        ArrayViewMut1(values)
    }
}

/// Whole rows, of at least one column.
macro_rules! whole_rows {
    ($rows:ty) => {
        impl<'a, T: 'a> Cut2<'a, T> for ($rows, RangeFull) {
            type View = ArrayView2<'a, T>;
            type ViewMut = ArrayViewMut2<'a, T>;
            fn range(&self, shape: [usize; 2]) -> Range<usize> {
                let rows = ends(&self.0, shape[0]);
                rows.start * shape[1]..rows.end * shape[1]
            }
            fn view(&self, values: &'a [T], columns: usize) -> Self::View {
                ArrayView2 { shape: [values.len() / columns.max(1), columns], values }
            }
            fn view_mut(&self, values: &'a mut [T]) -> Self::ViewMut {
                ArrayViewMut2(values)
            }
        }
    };
}

whole_rows!(Range<usize>);
whole_rows!(RangeFrom<usize>);

impl Array {
    pub fn from_elem<T: Clone>(length: usize, value: T) -> Array1<T> {
        Array1(vec![value; length])
    }
}

impl<T> Array1<T> {
    pub fn from_vec(values: Vec<T>) -> Self {
        Array1(values)
    }

    pub fn view(&self) -> ArrayView1<'_, T> {
        ArrayView1(&self.0)
    }

    pub fn iter(&self) -> std::slice::Iter<'_, T> {
        self.0.iter()
    }

    pub fn slice<R: RangeBounds<usize>>(&self, cut: (R,)) -> ArrayView1<'_, T> {
        ArrayView1(&self.0[ends(&cut.0, self.0.len())])
    }

    pub fn slice_mut<R: RangeBounds<usize>>(&mut self, cut: (R,)) -> ArrayViewMut1<'_, T> {
        let range = ends(&cut.0, self.0.len());
        ArrayViewMut1(&mut self.0[range])
    }

    pub fn accumulate_axis_inplace(&mut self, _: Axis, step: impl FnMut(&T, &mut T)) {
        accumulate(&mut self.0, 1, step);
    }
}

impl Array1<f64> {
    pub fn zeros(length: usize) -> Self {
        Array1(vec![0.; length])
    }

    pub fn sum(&self) -> f64 {
        sum(&self.0)
    }
}

impl<T> Array2<T> {
    pub fn shape(&self) -> &[usize] {
        &self.shape
    }

    pub fn iter(&self) -> std::slice::Iter<'_, T> {
        self.values.iter()
    }

    pub fn slice<'a, C: Cut2<'a, T>>(&'a self, cut: C) -> C::View {
        cut.view(&self.values[cut.range(self.shape)], self.shape[1])
    }

    pub fn slice_mut<'a, C: Cut2<'a, T>>(&'a mut self, cut: C) -> C::ViewMut {
        let range = cut.range(self.shape);
        cut.view_mut(&mut self.values[range])
    }

    pub fn accumulate_axis_inplace(&mut self, _: Axis, step: impl FnMut(&T, &mut T)) {
        accumulate(&mut self.values, self.shape[1], step);
    }

    pub fn axis_iter_mut(&mut self, _: Axis) -> impl Iterator<Item = ArrayViewMut1<'_, T>> {
        self.values.chunks_exact_mut(self.shape[1].max(1)).map(ArrayViewMut1)
    }
}

impl<T: Default + Clone> Array2<T> {
    #[allow(clippy::should_implement_trait)]
    pub fn default(shape: (usize, usize)) -> Self {
        Array2 { shape: [shape.0, shape.1], values: vec![T::default(); shape.0 * shape.1] }
    }
}

impl Array2<f64> {
    pub fn zeros(shape: (usize, usize)) -> Self {
        Array2::default(shape)
    }

    pub fn from_flat(shape: (usize, usize), values: Vec<f64>) -> Self {
        assert!(values.len() == shape.0 * shape.1);
        Array2 { shape: [shape.0, shape.1], values }
    }

    pub fn from_rows(rows: [&[f64]; 2]) -> Self {
        assert!(rows[0].len() == rows[1].len());
        Array2 { shape: [2, rows[0].len()], values: rows.concat() }
    }
}

impl<'a, T> ArrayView1<'a, T> {
    pub fn iter(&self) -> std::slice::Iter<'a, T> {
        self.0.iter()
    }

    pub fn split_at(self, _: Axis, index: usize) -> (Self, Self) {
        let (left, right) = self.0.split_at(index);
        (ArrayView1(left), ArrayView1(right))
    }
}

impl ArrayView1<'_, f64> {
    pub fn sum(&self) -> f64 {
        sum(self.0)
    }

    pub fn mapv(&self, map: impl FnMut(f64) -> f64) -> Array1<f64> {
        Array1(self.0.iter().copied().map(map).collect())
    }
}

impl<'a, T> ArrayView2<'a, T> {
    pub fn from_flat(shape: (usize, usize), values: &'a [T]) -> Self {
        assert!(values.len() == shape.0 * shape.1);
        ArrayView2 { shape: [shape.0, shape.1], values }
    }

    pub fn shape(&self) -> &[usize] {
        &self.shape
    }

    pub fn nrows(&self) -> usize {
        self.shape[0]
    }

    pub fn ncols(&self) -> usize {
        self.shape[1]
    }

    pub fn view(&self) -> ArrayView2<'a, T> {
        ArrayView2 { shape: self.shape, values: self.values }
    }

    pub fn axis_iter(&self, _: Axis) -> impl Iterator<Item = ArrayView1<'a, T>> {
        self.values.chunks_exact(self.shape[1].max(1)).map(ArrayView1)
    }
}

impl<T> ArrayViewMut1<'_, T> {
    pub fn iter_mut(&mut self) -> std::slice::IterMut<'_, T> {
        self.0.iter_mut()
    }
}

impl ArrayViewMut1<'_, f64> {
    pub fn assign(&mut self, values: &Array1<f64>) {
        self.0.copy_from_slice(&values.0);
    }

    pub fn mapv_inplace(&mut self, mut map: impl FnMut(f64) -> f64) {
        for value in self.0.iter_mut() {
            *value = map(*value);
        }
    }
}

pub fn stack(_: Axis, rows: &[ArrayView1<'_, f64>; 2]) -> Result<Array2<f64>, ()> {
    Ok(Array2::from_rows([rows[0].0, rows[1].0]))
}

fn sum(values: &[f64]) -> f64 {
    let mut total = 0.;
    for value in values {
        total += value;
    }
    total
}

/// Down each column of rows `columns` wide, from the second row on.
fn accumulate<T>(values: &mut [T], columns: usize, mut step: impl FnMut(&T, &mut T)) {
    for place in columns..values.len() {
        let (before, rest) = values.split_at_mut(place);
        step(&before[place - columns], &mut rest[0]);
    }
}

impl AddAssign<&ArrayView2<'_, f64>> for ArrayViewMut2<'_, f64> {
    fn add_assign(&mut self, other: &ArrayView2<'_, f64>) {
        assert!(self.0.len() == other.values.len());
        for (value, added) in self.0.iter_mut().zip(other.values) {
            *value += added;
        }
    }
}

impl Sub<&ArrayView1<'_, f64>> for &ArrayView1<'_, f64> {
    type Output = Array1<f64>;
    fn sub(self, other: &ArrayView1<'_, f64>) -> Array1<f64> {
        assert!(self.0.len() == other.0.len());
        Array1(self.0.iter().zip(other.0).map(|(left, right)| left - right).collect())
    }
}

impl Add<f64> for Array1<f64> {
    type Output = Array1<f64>;
    fn add(self, added: f64) -> Array1<f64> {
        Array1(self.0.into_iter().map(|value| value + added).collect())
    }
}

impl<T> Index<usize> for Array1<T> {
    type Output = T;
    fn index(&self, place: usize) -> &T {
        &self.0[place]
    }
}

impl<T> IndexMut<usize> for Array1<T> {
    fn index_mut(&mut self, place: usize) -> &mut T {
        &mut self.0[place]
    }
}

/// The place of an entry; a column past the end would fall into the next row.
fn place(shape: [usize; 2], at: [usize; 2]) -> usize {
    assert!(at[0] < shape[0] && at[1] < shape[1]);
    at[0] * shape[1] + at[1]
}

impl<T> Index<[usize; 2]> for Array2<T> {
    type Output = T;
    fn index(&self, at: [usize; 2]) -> &T {
        &self.values[place(self.shape, at)]
    }
}

impl<T> IndexMut<[usize; 2]> for Array2<T> {
    fn index_mut(&mut self, at: [usize; 2]) -> &mut T {
        &mut self.values[place(self.shape, at)]
    }
}

impl<T> Index<[usize; 2]> for ArrayView2<'_, T> {
    type Output = T;
    fn index(&self, at: [usize; 2]) -> &T {
        &self.values[place(self.shape, at)]
    }
}

impl<T: std::fmt::Debug> std::fmt::Display for Array1<T> {
    fn fmt(&self, f: &mut std::fmt::Formatter) -> std::fmt::Result {
        write!(f, "{:?}", self.0)
    }
}
