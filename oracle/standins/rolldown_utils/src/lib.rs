//! Stand-in of `rolldown_utils`: bit sets by index, maps in order of insertion, and parallel iterators as plain ones.

use oxc_index::Idx;
use std::marker::PhantomData;

/// A row of bits by index.
#[derive(Clone, Debug)]
pub struct IndexBitSet<I> {
    words: Vec<u64>,
    index: PhantomData<fn(&I)>,
}

impl<I> Default for IndexBitSet<I> {
    fn default() -> Self {
        IndexBitSet { words: Vec::new(), index: PhantomData }
    }
}

impl<I> IndexBitSet<I> {
    pub fn new(bits: usize) -> Self {
        IndexBitSet { words: vec![0; bits.div_ceil(64)], index: PhantomData }
    }

    pub fn bit_count(&self) -> u32 {
        self.words.iter().map(|word| word.count_ones()).sum()
    }
}

impl<I: Idx> IndexBitSet<I> {
    #[inline]
    pub fn has_bit(&self, index: I) -> bool {
        let bit = index.to_usize();
        self.words[bit / 64] & 1 << (bit % 64) != 0
    }

    /// Sets a bit; false if it was set already.
    #[inline]
    pub fn set_bit(&mut self, index: I) -> bool {
        let bit = index.to_usize();
        let (word, mask) = (&mut self.words[bit / 64], 1 << (bit % 64));
        let new = *word & mask == 0;
        *word |= mask;
        new
    }
}

pub mod indexmap {
    use rustc_hash::FxBuildHasher;

    pub type FxIndexMap<K, V> = ::indexmap::IndexMap<K, V, FxBuildHasher>;
    pub type FxIndexSet<T> = ::indexmap::IndexSet<T, FxBuildHasher>;
}

/// One thread, as in a build for wasm. No iterator of std, so that the methods of `Itertools` don't meet these.
pub mod rayon {
    pub struct InOrder<I>(I);

    pub trait ParallelIterator: Sized {
        type Items: Iterator;

        fn items(self) -> Self::Items;

        fn filter_map<T, F>(self, f: F) -> InOrder<std::iter::FilterMap<Self::Items, F>>
        where
            F: FnMut(<Self::Items as Iterator>::Item) -> Option<T>,
        {
            InOrder(self.items().filter_map(f))
        }

        fn for_each(self, f: impl FnMut(<Self::Items as Iterator>::Item)) {
            self.items().for_each(f);
        }

        fn reduce<T>(self, identity: impl Fn() -> T, f: impl FnMut(T, T) -> T) -> T
        where
            Self::Items: Iterator<Item = T>,
        {
            self.items().fold(identity(), f)
        }
    }

    pub trait IndexedParallelIterator: ParallelIterator {
        /// Both sides have to be equally long.
        fn zip_eq<O: ParallelIterator>(self, other: O) -> InOrder<std::iter::Zip<Self::Items, O::Items>>
        where
            Self::Items: ExactSizeIterator,
            O::Items: ExactSizeIterator,
        {
            let (left, right) = (self.items(), other.items());
            assert_eq!(left.len(), right.len());
            InOrder(left.zip(right))
        }
    }

    impl<I: Iterator> ParallelIterator for InOrder<I> {
        type Items = I;

        fn items(self) -> I {
            self.0
        }
    }

    impl<I: Iterator> IndexedParallelIterator for InOrder<I> {}

    pub trait IntoParallelRefIterator<'a> {
        type Items: Iterator;

        fn par_iter(&'a self) -> InOrder<Self::Items>;
    }

    impl<'a, T: 'a> IntoParallelRefIterator<'a> for T
    where
        &'a T: IntoIterator,
    {
        type Items = <&'a T as IntoIterator>::IntoIter;

        fn par_iter(&'a self) -> InOrder<Self::Items> {
            InOrder(self.into_iter())
        }
    }

    pub trait IntoParallelRefMutIterator<'a> {
        type Items: Iterator;

        fn par_iter_mut(&'a mut self) -> InOrder<Self::Items>;
    }

    impl<'a, T: 'a> IntoParallelRefMutIterator<'a> for T
    where
        &'a mut T: IntoIterator,
    {
        type Items = <&'a mut T as IntoIterator>::IntoIter;

        fn par_iter_mut(&'a mut self) -> InOrder<Self::Items> {
            InOrder(self.into_iter())
        }
    }
}
