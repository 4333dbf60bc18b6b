//! Stand-in for `p3_maybe_rayon`: the parallel loops run one part after the other.

pub mod prelude {
    pub trait ParallelSliceMut<T> {
        fn par_chunks_mut(&mut self, size: usize) -> std::slice::ChunksMut<'_, T>;
    }

    impl<T> ParallelSliceMut<T> for [T] {
        fn par_chunks_mut(&mut self, size: usize) -> std::slice::ChunksMut<'_, T> {
            self.chunks_mut(size)
        }
    }

    pub trait ParallelIterator: Iterator + Sized {
        fn with_min_task_bytes(self, _bytes: usize) -> Self {
            self
        }
    }

    impl<I: Iterator> ParallelIterator for I {}

    /// More than one, so that the accumulator is put together from parts also on small tables.
    pub fn current_num_threads() -> usize {
        3
    }

    pub fn min_task_len(_items: usize, _bytes: usize) -> usize {
        1
    }
}
