//! Stand-in of `rustc-hash` 2: its multiplying hash, mixed further by a seed. Seed 0 leaves it as it is.
//!
//! A map takes the seed that is set on the thread when it is made. So another seed tries another order of iteration.

use std::borrow::Borrow;
use std::cell::Cell;
use std::collections::{hash_set, HashMap, HashSet};
use std::hash::{BuildHasher, Hash, Hasher};
use std::ops::{Deref, DerefMut};

const MULTIPLIER: u64 = 0xf135_7aea_2e62_a9c5;

thread_local! {
    static SEED: Cell<u64> = const { Cell::new(0) };
    static SETS_TAKEN_APART: Cell<u64> = const { Cell::new(0) };
}

/// Maps and sets made on this thread from now on iterate in the order of this seed.
pub fn set_seed(seed: u64) {
    SEED.set(seed);
}

/// How many sets were iterated by value on this thread so far.
pub fn sets_taken_apart() -> u64 {
    SETS_TAKEN_APART.get()
}

#[derive(Clone, Copy, Debug)]
pub struct FxBuildHasher {
    seed: u64,
}

impl Default for FxBuildHasher {
    #[inline]
    fn default() -> FxBuildHasher {
        FxBuildHasher { seed: SEED.get() }
    }
}

impl BuildHasher for FxBuildHasher {
    type Hasher = FxHasher;

    #[inline]
    fn build_hasher(&self) -> FxHasher {
        FxHasher { hash: 0, seed: self.seed }
    }
}

#[derive(Clone, Copy, Debug)]
pub struct FxHasher {
    hash: u64,
    seed: u64,
}

impl FxHasher {
    #[inline]
    fn add(&mut self, word: u64) {
        self.hash = self.hash.wrapping_add(word).wrapping_mul(MULTIPLIER);
    }
}

impl Hasher for FxHasher {
    #[inline]
    fn write(&mut self, bytes: &[u8]) {
        for group in bytes.chunks(8) {
            let mut word = [0; 8];
            word[..group.len()].copy_from_slice(group);
            self.add(u64::from_le_bytes(word));
        }
    }

    #[inline]
    fn write_u8(&mut self, number: u8) {
        self.add(u64::from(number));
    }

    #[inline]
    fn write_u32(&mut self, number: u32) {
        self.add(u64::from(number));
    }

    #[inline]
    fn write_u64(&mut self, number: u64) {
        self.add(number);
    }

    #[inline]
    fn write_usize(&mut self, number: usize) {
        self.add(number as u64);
    }

    #[inline]
    fn finish(&self) -> u64 {
        match self.seed {
            0 => self.hash.rotate_left(26),
            seed => mixed(self.hash ^ mixed(seed)),
        }
    }
}

/// Each bit by all others, as splitmix64 does.
fn mixed(number: u64) -> u64 {
    let number = (number ^ number >> 30).wrapping_mul(0xbf58_476d_1ce4_e5b9);
    let number = (number ^ number >> 27).wrapping_mul(0x94d0_49bb_1331_11eb);
    number ^ number >> 31
}

pub type FxHashMap<K, V> = HashMap<K, V, FxBuildHasher>;

/// A set of its own type only so that iterations by value are counted: `include_statements` makes one a round.
#[derive(Clone, Debug)]
pub struct FxHashSet<T>(HashSet<T, FxBuildHasher>);

impl<T> Default for FxHashSet<T> {
    #[inline]
    fn default() -> FxHashSet<T> {
        FxHashSet(HashSet::default())
    }
}

impl<T> Deref for FxHashSet<T> {
    type Target = HashSet<T, FxBuildHasher>;

    #[inline]
    fn deref(&self) -> &Self::Target {
        &self.0
    }
}

impl<T> DerefMut for FxHashSet<T> {
    #[inline]
    fn deref_mut(&mut self) -> &mut Self::Target {
        &mut self.0
    }
}

impl<T> IntoIterator for FxHashSet<T> {
    type Item = T;
    type IntoIter = hash_set::IntoIter<T>;

    #[inline]
    fn into_iter(self) -> Self::IntoIter {
        SETS_TAKEN_APART.set(SETS_TAKEN_APART.get() + 1);
        self.0.into_iter()
    }
}

impl<'a, T> IntoIterator for &'a FxHashSet<T> {
    type Item = &'a T;
    type IntoIter = hash_set::Iter<'a, T>;

    #[inline]
    fn into_iter(self) -> Self::IntoIter {
        self.0.iter()
    }
}

impl<T: Eq + Hash> FromIterator<T> for FxHashSet<T> {
    fn from_iter<I: IntoIterator<Item = T>>(items: I) -> FxHashSet<T> {
        FxHashSet(items.into_iter().collect())
    }
}

impl<T: Eq + Hash> Extend<T> for FxHashSet<T> {
    fn extend<I: IntoIterator<Item = T>>(&mut self, items: I) {
        self.0.extend(items);
    }
}

impl<T: Eq + Hash> FxHashSet<T> {
    #[inline]
    pub fn contains<Q: Hash + Eq + ?Sized>(&self, item: &Q) -> bool
    where
        T: Borrow<Q>,
    {
        self.0.contains(item)
    }
}
