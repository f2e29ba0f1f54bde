// Stands for the crate p3_maybe_rayon: its parallel iterators as the serial ones of the standard library, in order. With `--cfg each_item` a
// fold starts anew at each item and the parts are combined afterwards, as threads would do at the finest grain.

pub mod prelude {
    use std::slice::{Chunks, ChunksExact, ChunksMut, Iter};

    pub trait Slices<T> {
        fn par_iter(&self) -> Iter<'_, T>;
        fn par_chunks(&self, len: usize) -> Chunks<'_, T>;
        fn par_chunks_exact(&self, len: usize) -> ChunksExact<'_, T>;
        fn par_chunks_mut(&mut self, len: usize) -> ChunksMut<'_, T>;
    }

    impl<T> Slices<T> for [T] {
        fn par_iter(&self) -> Iter<'_, T> {
            self.iter()
        }

        fn par_chunks(&self, len: usize) -> Chunks<'_, T> {
            self.chunks(len)
        }

        fn par_chunks_exact(&self, len: usize) -> ChunksExact<'_, T> {
            self.chunks_exact(len)
        }

        fn par_chunks_mut(&mut self, len: usize) -> ChunksMut<'_, T> {
            self.chunks_mut(len)
        }
    }

    pub trait Folds: Iterator + Sized {
        fn par_fold_reduce<A>(
            self,
            identity: impl Fn() -> A,
            fold: impl Fn(A, Self::Item) -> A,
            reduce: impl Fn(A, A) -> A,
        ) -> A {
            if cfg!(each_item) {
                self.map(|item| fold(identity(), item))
                    .fold(identity(), reduce)
            } else {
                self.fold(identity(), fold)
            }
        }

        fn for_each_init<A>(self, init: impl Fn() -> A, each: impl Fn(&mut A, Self::Item)) {
            let mut scratch = init();
            self.for_each(|item| each(&mut scratch, item));
        }
    }

    impl<I: Iterator> Folds for I {}
}
