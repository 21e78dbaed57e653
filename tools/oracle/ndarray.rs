//! A stand-in for the part of `scirs2_core::ndarray` that kriging.rs uses, with ndarray's behaviour there:
//! elements row after row, an index out of range panics in each axis, a row's elements are walked in order.

pub mod ndarray {
    use std::ops::{Index, IndexMut};

    #[derive(Debug, Clone)]
    pub struct Array1<T> {
        items: Vec<T>,
    }

    #[derive(Debug, Clone)]
    pub struct Array2<T> {
        items: Vec<T>,
        rows: usize,
        columns: usize,
    }

    #[derive(Debug, Clone, Copy)]
    pub struct ArrayView1<'a, T> {
        items: &'a [T],
    }

    #[derive(Debug, Clone, Copy)]
    pub struct ArrayView2<'a, T> {
        items: &'a [T],
        rows: usize,
        columns: usize,
    }

    impl<T> Array1<T> {
        pub fn from_vec(items: Vec<T>) -> Self {
            Self { items }
        }

        pub fn view(&self) -> ArrayView1<'_, T> {
            ArrayView1 { items: &self.items }
        }

        pub fn len(&self) -> usize {
            self.items.len()
        }

        pub fn iter(&self) -> std::slice::Iter<'_, T> {
            self.items.iter()
        }
    }

    impl<T: Clone + Default> Array1<T> {
        pub fn zeros(length: usize) -> Self {
            Self { items: vec![T::default(); length] }
        }
    }

    impl<T> Array2<T> {
        /// ndarray's `from_shape_vec`, which answers an error where the shape does not fit the length.
        pub fn from_shape_vec((rows, columns): (usize, usize), items: Vec<T>) -> Result<Self, ()> {
            if rows * columns == items.len() {
                Ok(Self { items, rows, columns })
            } else {
                Err(())
            }
        }

        pub fn view(&self) -> ArrayView2<'_, T> {
            ArrayView2 { items: &self.items, rows: self.rows, columns: self.columns }
        }

        pub fn nrows(&self) -> usize {
            self.rows
        }

        pub fn ncols(&self) -> usize {
            self.columns
        }

        pub fn row(&self, row: usize) -> ArrayView1<'_, T> {
            assert!(row < self.rows, "row out of range");
            ArrayView1 { items: &self.items[row * self.columns..(row + 1) * self.columns] }
        }

        pub fn iter(&self) -> std::slice::Iter<'_, T> {
            self.items.iter()
        }
    }

    impl<T: Clone + Default> Array2<T> {
        pub fn zeros((rows, columns): (usize, usize)) -> Self {
            Self { items: vec![T::default(); rows * columns], rows, columns }
        }
    }

    impl<T> ArrayView1<'_, T> {
        pub fn len(&self) -> usize {
            self.items.len()
        }

        pub fn iter(&self) -> std::slice::Iter<'_, T> {
            self.items.iter()
        }
    }

    impl<T> ArrayView2<'_, T> {
        pub fn nrows(&self) -> usize {
            self.rows
        }

        pub fn ncols(&self) -> usize {
            self.columns
        }
    }

    #[inline(always)]
    fn place([row, column]: [usize; 2], rows: usize, columns: usize) -> usize {
        assert!(row < rows && column < columns, "index out of range");
        row * columns + column
    }

    impl<T> Index<usize> for Array1<T> {
        type Output = T;
        #[inline(always)]
        fn index(&self, at: usize) -> &T {
            &self.items[at]
        }
    }

    impl<T> IndexMut<usize> for Array1<T> {
        #[inline(always)]
        fn index_mut(&mut self, at: usize) -> &mut T {
            &mut self.items[at]
        }
    }

    impl<T> Index<usize> for ArrayView1<'_, T> {
        type Output = T;
        #[inline(always)]
        fn index(&self, at: usize) -> &T {
            &self.items[at]
        }
    }

    impl<T> Index<[usize; 2]> for Array2<T> {
        type Output = T;
        #[inline(always)]
        fn index(&self, at: [usize; 2]) -> &T {
            &self.items[place(at, self.rows, self.columns)]
        }
    }

    impl<T> IndexMut<[usize; 2]> for Array2<T> {
        #[inline(always)]
        fn index_mut(&mut self, at: [usize; 2]) -> &mut T {
            &mut self.items[place(at, self.rows, self.columns)]
        }
    }

    impl<T> Index<[usize; 2]> for ArrayView2<'_, T> {
        type Output = T;
        #[inline(always)]
        fn index(&self, at: [usize; 2]) -> &T {
            &self.items[place(at, self.rows, self.columns)]
        }
    }
}
