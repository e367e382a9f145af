//! What is done with all words of a range.
use super::Judy1;
use crate::sieve::Sieve;
use crate::span::Span;
use crate::types::Key;
use crate::{no_room, NoMemory};
use sellumaq_sys as sys;
use std::iter::FusedIterator;
use std::ops::RangeBounds;

/// A call of C that changes which words of a range are keys.
type ChangeRange = unsafe extern "C" fn(*mut sys::sellumaq_judy1, u64, u64) -> u32;

/// The words of all numbers of a range, where there is one.
fn words_of<K: Key>(range: impl RangeBounds<K>) -> Option<(u64, u64)> {
    let (from, to) = Span::of(range).ends()?;
    (from <= K::LAST).then(|| (from, to.min(K::LAST)))
}

impl<K: Key> Judy1<K> {
    /// Whether each number of a range is a key; it is so of a range without numbers. It takes one search.
    ///
    /// ```
    /// let set = sellumaq::Judy1::from([3, 4, 5]);
    /// assert!(set.contains_range(3..6) && !set.contains_range(3..7));
    /// ```
    #[must_use]
    pub fn contains_range(&self, range: impl RangeBounds<K>) -> bool {
        words_of(range).map_or(true, |(from, to)| {
            let absent = self.search(sys::sellumaq_judy1_first_empty, from);
            absent.map_or(true, |word| word > to)
        })
    }

    fn change_range(
        &mut self,
        range: impl RangeBounds<K>,
        call: ChangeRange,
    ) -> Result<(), NoMemory> {
        words_of(range).map_or(Ok(()), |(from, to)| {
            // SAFETY: the handle is this set's, lent for this call alone.
            match unsafe { call(&mut self.handle, from, to) } {
                sys::SELLUMAQ_DONE => Ok(()),
                _ => Err(NoMemory),
            }
        })
    }

    /// Puts each number of a range in, and answers how many were absent. It ends the program where there is no memory,
    /// as there is none for all words.
    ///
    /// ```
    /// let mut set = sellumaq::Judy1::from([3]);
    /// assert_eq!((set.insert_range(2..=5), set.len()), (3, 4));
    /// ```
    pub fn insert_range(&mut self, range: impl RangeBounds<K>) -> usize {
        self.try_insert_range(range).unwrap_or_else(no_room)
    }

    /// Puts each number of a range in, and answers how many were absent.
    ///
    /// # Errors
    ///
    /// [`NoMemory`] where there is none for the keys, and the set is as it was.
    ///
    /// ```
    /// let mut set = sellumaq::Judy1::new();
    /// assert_eq!(set.try_insert_range(2..5), Ok(3));
    /// assert!(set.try_insert_range(..).is_err());
    /// ```
    pub fn try_insert_range(&mut self, range: impl RangeBounds<K>) -> Result<usize, NoMemory> {
        let had = self.len();
        self.change_range(range, sys::sellumaq_judy1_insert_range)?;
        Ok(self.len() - had)
    }

    /// Takes the keys of a range out, and puts its other numbers in. It ends the program where there is no memory.
    ///
    /// ```
    /// let mut set = sellumaq::Judy1::from([3, 9]);
    /// set.flip_range(2..5);
    /// assert!(set.iter().eq([2, 4, 9]));
    /// ```
    pub fn flip_range(&mut self, range: impl RangeBounds<K>) {
        self.try_flip_range(range).unwrap_or_else(no_room);
    }

    /// Takes the keys of a range out, and puts its other numbers in.
    ///
    /// # Errors
    ///
    /// [`NoMemory`] where there is none for the keys, and the set is as it was.
    ///
    /// ```
    /// let mut set = sellumaq::Judy1::from([3]);
    /// assert_eq!((set.try_flip_range(2..5), set.len()), (Ok(()), 2));
    /// ```
    pub fn try_flip_range(&mut self, range: impl RangeBounds<K>) -> Result<(), NoMemory> {
        self.change_range(range, sys::sellumaq_judy1_flip)
    }

    /// Takes those keys of a range out that are chosen, one at each step of the iterator, by ascending key. Where that
    /// is dropped, the others stay.
    ///
    /// ```
    /// let mut set: sellumaq::Judy1 = (0..10).collect();
    /// assert!(set.extract_if(4.., |key| key % 2 == 0).eq([4, 6, 8]));
    /// assert_eq!(set.len(), 7);
    /// ```
    pub fn extract_if<F: FnMut(&K) -> bool>(
        &mut self,
        range: impl RangeBounds<K>,
        chosen: F,
    ) -> ExtractIf<'_, K, F> {
        ExtractIf {
            sieve: Sieve::of(self, range),
            chosen,
        }
    }
}

/// The keys that [`Judy1::extract_if`] takes out.
///
/// ```
/// let mut set = sellumaq::Judy1::from([1, 2]);
/// assert_eq!(set.extract_if(.., |key| *key > 1).next(), Some(2));
/// ```
#[must_use = "iterators are lazy and do nothing unless consumed"]
pub struct ExtractIf<'a, K: Key, F> {
    sieve: Sieve<'a, Judy1<K>>,
    chosen: F,
}

impl<K: Key, F: FnMut(&K) -> bool> Iterator for ExtractIf<'_, K, F> {
    type Item = K;

    fn next(&mut self) -> Option<K> {
        while let Some(word) = self.sieve.next() {
            let key = K::of_word(word);
            if (self.chosen)(&key) {
                self.sieve.goes(word);
                return Some(key);
            }
            self.sieve.stays(word);
        }
        None
    }
}

impl<K: Key, F: FnMut(&K) -> bool> FusedIterator for ExtractIf<'_, K, F> {}
