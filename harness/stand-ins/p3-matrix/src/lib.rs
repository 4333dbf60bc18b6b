//! Stand-in for `p3_matrix`: matrices whose rows stand one after the other, and pairs of them.

pub trait Matrix<T> {
    fn width(&self) -> usize;
    fn height(&self) -> usize;
    fn row_slice(&self, row: usize) -> Option<&[T]>;
}

pub mod dense {
    use std::borrow::Borrow;
    use std::marker::PhantomData;

    use crate::Matrix;

    #[derive(Clone, Copy, Debug)]
    pub struct DenseMatrix<T, V> {
        pub values: V,
        pub width: usize,
        element: PhantomData<T>,
    }

    pub type RowMajorMatrix<T> = DenseMatrix<T, Vec<T>>;
    pub type RowMajorMatrixView<'a, T> = DenseMatrix<T, &'a [T]>;

    impl<T, V: Borrow<[T]>> DenseMatrix<T, V> {
        pub fn new(values: V, width: usize) -> Self {
            assert!(values.borrow().len() == width * values.borrow().len().checked_div(width).unwrap_or(0));
            Self { values, width, element: PhantomData }
        }
    }

    impl<'a, T> RowMajorMatrixView<'a, T> {
        pub fn new_row(values: &'a [T]) -> Self {
            Self::new(values, values.len())
        }
    }

    impl<T, V: Borrow<[T]>> Matrix<T> for DenseMatrix<T, V> {
        fn width(&self) -> usize {
            self.width
        }

        fn height(&self) -> usize {
            self.values.borrow().len().checked_div(self.width).unwrap_or(0)
        }

        fn row_slice(&self, row: usize) -> Option<&[T]> {
            (row < self.height()).then(|| &self.values.borrow()[row * self.width..(row + 1) * self.width])
        }
    }
}

pub mod stack {
    use crate::dense::RowMajorMatrixView;

    #[derive(Clone, Copy, Debug)]
    pub struct VerticalPair<Top, Bottom> {
        pub top: Top,
        pub bottom: Bottom,
    }

    pub type ViewPair<'a, T> = VerticalPair<RowMajorMatrixView<'a, T>, RowMajorMatrixView<'a, T>>;

    impl<Top, Bottom> VerticalPair<Top, Bottom> {
        pub fn new(top: Top, bottom: Bottom) -> Self {
            Self { top, bottom }
        }
    }
}
