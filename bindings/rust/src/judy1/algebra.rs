//! Iterators over two sets.
use super::{Iter, Judy1};
use crate::types::Key;
use std::cmp::Ordering::{Equal, Greater, Less};
use std::iter::{FusedIterator, Peekable};

impl<K: Key> Judy1<K> {
    /// The keys of either set, by ascending key.
    ///
    /// ```
    /// let (a, b) = (sellumaq::Judy1::from([1, 2]), sellumaq::Judy1::from([2, 3]));
    /// assert!(a.union(&b).eq([1, 2, 3]));
    /// ```
    pub fn union<'a>(&'a self, other: &'a Judy1<K>) -> Union<'a, K> {
        Union(Both::of(self, other))
    }

    /// The keys of both sets, by ascending key. It leaps to the next key of the one set and then of the other, so that
    /// it takes a time in which the lesser of the two could be gone through.
    ///
    /// ```
    /// let (a, b) = (sellumaq::Judy1::from([1, 2]), sellumaq::Judy1::from([2, 3]));
    /// assert!(a.intersection(&b).eq([2]));
    /// ```
    pub fn intersection<'a>(&'a self, other: &'a Judy1<K>) -> Intersection<'a, K> {
        Intersection {
            sets: [self, other],
            from: Some(0),
        }
    }

    /// The keys of this set that are none of the other's, by ascending key.
    ///
    /// ```
    /// let (a, b) = (sellumaq::Judy1::from([1, 2]), sellumaq::Judy1::from([2, 3]));
    /// assert!(a.difference(&b).eq([1]));
    /// ```
    pub fn difference<'a>(&'a self, other: &'a Judy1<K>) -> Difference<'a, K> {
        Difference {
            keys: self.iter(),
            other,
        }
    }

    /// The keys of one of the sets alone, by ascending key.
    ///
    /// ```
    /// let (a, b) = (sellumaq::Judy1::from([1, 2]), sellumaq::Judy1::from([2, 3]));
    /// assert!(a.symmetric_difference(&b).eq([1, 3]));
    /// ```
    pub fn symmetric_difference<'a>(&'a self, other: &'a Judy1<K>) -> SymmetricDifference<'a, K> {
        SymmetricDifference(Both::of(self, other))
    }
}

/// Two sets gone through side by side.
#[derive(Clone, Debug)]
struct Both<'a, K: Key>([Peekable<Iter<'a, K>>; 2]);

impl<'a, K: Key> Both<'a, K> {
    fn of(one: &'a Judy1<K>, other: &'a Judy1<K>) -> Both<'a, K> {
        Both([one.iter().peekable(), other.iter().peekable()])
    }

    /// The least key that is left, and whether both sets have it.
    fn next(&mut self) -> Option<(K, bool)> {
        let Both([one, other]) = self;
        let order = match (one.peek(), other.peek()) {
            (Some(a), Some(b)) => a.cmp(b),
            (None, _) => Greater,
            (_, None) => Less,
        };
        match order {
            Less => one.next().map(|key| (key, false)),
            Greater => other.next().map(|key| (key, false)),
            Equal => one.next().and(other.next()).map(|key| (key, true)),
        }
    }
}

/// The keys of either of two sets, by ascending key.
///
/// ```
/// let (a, b) = (sellumaq::Judy1::from([1, 2]), sellumaq::Judy1::from([2, 3]));
/// assert_eq!(a.union(&b).last(), Some(3));
/// ```
#[derive(Clone, Debug)]
#[must_use = "this is an iterator over the keys, and changes neither set"]
pub struct Union<'a, K: Key = u64>(Both<'a, K>);

impl<K: Key> Iterator for Union<'_, K> {
    type Item = K;

    fn next(&mut self) -> Option<K> {
        self.0.next().map(|(key, _)| key)
    }
}

/// The keys of one of two sets alone, by ascending key.
///
/// ```
/// let (a, b) = (sellumaq::Judy1::from([1, 2]), sellumaq::Judy1::from([2, 3]));
/// assert_eq!(a.symmetric_difference(&b).last(), Some(3));
/// ```
#[derive(Clone, Debug)]
#[must_use = "this is an iterator over the keys, and changes neither set"]
pub struct SymmetricDifference<'a, K: Key = u64>(Both<'a, K>);

impl<K: Key> Iterator for SymmetricDifference<'_, K> {
    type Item = K;

    fn next(&mut self) -> Option<K> {
        loop {
            let (key, both) = self.0.next()?;
            if !both {
                return Some(key);
            }
        }
    }
}

/// The keys of two sets both, by ascending key.
///
/// ```
/// let (a, b) = (sellumaq::Judy1::from([1, 2]), sellumaq::Judy1::from([2, 3]));
/// assert_eq!(a.intersection(&b).last(), Some(2));
/// ```
#[derive(Clone, Debug)]
#[must_use = "this is an iterator over the keys, and changes neither set"]
pub struct Intersection<'a, K: Key = u64> {
    sets: [&'a Judy1<K>; 2],
    // The word to go on from.
    from: Option<u64>,
}

impl<K: Key> Iterator for Intersection<'_, K> {
    type Item = K;

    fn next(&mut self) -> Option<K> {
        let mut from = self.from.take()?;
        loop {
            let one = self.sets[0].least(from)?;
            from = self.sets[1].least(one)?;
            if from == one {
                self.from = one.checked_add(1);
                return Some(K::of_word(one));
            }
        }
    }
}

/// The keys of a set that are none of another's, by ascending key.
///
/// ```
/// let (a, b) = (sellumaq::Judy1::from([1, 2]), sellumaq::Judy1::from([2, 3]));
/// assert_eq!(a.difference(&b).last(), Some(1));
/// ```
#[derive(Clone, Debug)]
#[must_use = "this is an iterator over the keys, and changes neither set"]
pub struct Difference<'a, K: Key = u64> {
    keys: Iter<'a, K>,
    other: &'a Judy1<K>,
}

impl<K: Key> Iterator for Difference<'_, K> {
    type Item = K;

    fn next(&mut self) -> Option<K> {
        let other = self.other;
        self.keys.find(|key| !other.contains(key))
    }
}

impl<K: Key> FusedIterator for Union<'_, K> {}
impl<K: Key> FusedIterator for SymmetricDifference<'_, K> {}
impl<K: Key> FusedIterator for Intersection<'_, K> {}
impl<K: Key> FusedIterator for Difference<'_, K> {}
