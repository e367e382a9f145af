//! Sets of words, and their iterators.
use crate::array::array;
use crate::saved::{saved, OfTypes};
use crate::sorted::at_once;
use crate::span::Span;
use crate::two::of_two;
use crate::types::Key;
use crate::walk::walks;
use crate::way::Way;
use crate::words::{collected, word_array};
use crate::{no_room, NoMemory};
use sellumaq_sys as sys;
use std::borrow::Borrow;
use std::fmt;

mod algebra;
mod ranges;

pub use algebra::{Difference, Intersection, SymmetricDifference, Union};
pub use ranges::ExtractIf;

array!(
    /// An ordered set of words, or of other integers: a `Judy1` is a set of `u64`, and a `Judy1<i32>` one of `i32`.
    ///
    /// ```
    /// use sellumaq::Judy1;
    ///
    /// let mut set = Judy1::from([5, 3, 1]);
    /// assert!(set.insert(4) && !set.insert(3));
    /// assert_eq!(format!("{set:?}"), "{1, 3, 4, 5}");
    ///
    /// let degrees: Judy1<i32> = [20, -5, 0].into_iter().collect();
    /// assert!(degrees.range(..0).eq([-5]));
    /// ```
    Judy1<K: Key = u64> over sellumaq_judy1, sellumaq_judy1_len, sellumaq_judy1_bytes, sellumaq_judy1_free;
    "let array = sellumaq::Judy1::from([1, 2, 10]);"
);

word_array!(
    Judy1<K: Key>; u64, sellumaq_judy1_walk, sellumaq_judy1_walk_down;
    sellumaq_judy1_count, sellumaq_judy1_first_empty, sellumaq_judy1_last_empty,
    sellumaq_judy1_remove_range, sellumaq_judy1_retain_range, sellumaq_judy1_copy_range, sellumaq_judy1_split_off;
    "let array = sellumaq::Judy1::from([1, 2, 10]);"
);

collected!(Judy1<K: Key>; K, u64; sellumaq_judy1_append; "let array = sellumaq::Judy1::from([1, 2, 10]);");

of_two!(
    Judy1<K: Key>; K, |key| key; contains, get; sellumaq_judy1,
    sellumaq_judy1_copy, sellumaq_judy1_union, sellumaq_judy1_intersection, sellumaq_judy1_difference, sellumaq_judy1_symmetric_difference;
    sellumaq_judy1_intersection_count, sellumaq_judy1_is_subset, sellumaq_judy1_is_disjoint, sellumaq_judy1_has_same_keys;
    NoMemory, NoMemory::of, no_room;
    "[`NoMemory`] where there is none for it; there the sign ends the program.",
    "let (a, b) = (sellumaq::Judy1::from([1, 2]), sellumaq::Judy1::from([2, 3]));"
);

at_once!(
    Judy1<K: Key>; K; u64, sellumaq_judy1_from_sorted, sellumaq_judy1_from_unsorted;
    "let array = sellumaq::Judy1::from_sorted([1, 2, 10]);",
    "assert!(sellumaq::Judy1::from_sorted([1, 2, 2]).is_err());",
    "let array = sellumaq::Judy1::from_unsorted([3, 1, 3]);"
);

walks!(Judy1<K: Key = u64> through Way<u64>; K; "let array = sellumaq::Judy1::from([1, 2, 10]);");

/// How many keys [`Judy1::contains_many`] hands to C at a time.
const GROUP: usize = 64;

/// A search of C from a word for another.
type Search = unsafe extern "C" fn(*const sys::sellumaq_judy1, u64, *mut u64) -> bool;

saved!(
    Judy1<K: Key>; sellumaq_judy1_dump, sellumaq_judy1_dump_size, sellumaq_judy1_load, sellumaq_judy1_save, sellumaq_judy1_open;
    "let array = sellumaq::Judy1::from([1, 2, 10]);", "<sellumaq::Judy1>"
);

impl<K: Key> OfTypes for Judy1<K> {
    fn is_of_types(&self) -> Result<bool, NoMemory> {
        Ok(self.greatest(u64::MAX).map_or(true, |key| key <= K::LAST))
    }
}

// Keys as the library knows them.
impl<K: Key> Judy1<K> {
    fn item(word: u64) -> K {
        K::of_word(word)
    }

    fn told(key: K) -> u64 {
        key.word()
    }

    fn least(&self, from: u64) -> Option<u64> {
        self.search(sys::sellumaq_judy1_first, from)
    }

    fn greatest(&self, up_to: u64) -> Option<u64> {
        self.search(sys::sellumaq_judy1_last, up_to)
    }

    fn delete_word(&mut self, word: u64) -> bool {
        // SAFETY: the handle is this set's, lent for this call alone.
        unsafe { sys::sellumaq_judy1_unset(&mut self.handle, word) }
    }
}

impl<K: Key> Judy1<K> {
    /// Puts a key in, and answers whether it was absent. It ends the program where there is no memory, as std's sets
    /// do.
    ///
    /// ```
    /// let mut set = sellumaq::Judy1::new();
    /// assert!(set.insert(7));
    /// assert!(!set.insert(7));
    /// ```
    pub fn insert(&mut self, key: K) -> bool {
        self.try_insert(key).unwrap_or_else(no_room)
    }

    /// Puts a key in, and answers whether it was absent.
    ///
    /// # Errors
    ///
    /// [`NoMemory`] where there is none for a new key, and the set is as it was. A key that is there is never refused.
    ///
    /// ```
    /// let mut set = sellumaq::Judy1::new();
    /// assert_eq!(set.try_insert(7), Ok(true));
    /// ```
    pub fn try_insert(&mut self, key: K) -> Result<bool, NoMemory> {
        // SAFETY: the handle is this set's, lent for this call alone.
        match unsafe { sys::sellumaq_judy1_set(&mut self.handle, key.word()) } {
            sys::SELLUMAQ_NO_MEMORY => Err(NoMemory),
            told => Ok(told == sys::SELLUMAQ_ADDED),
        }
    }

    /// Takes a key out, and answers whether it was there.
    ///
    /// ```
    /// let mut set = sellumaq::Judy1::from([7]);
    /// assert!(set.remove(&7) && !set.remove(7));
    /// ```
    pub fn remove(&mut self, key: impl Borrow<K>) -> bool {
        self.delete_word(key.borrow().word())
    }

    /// Whether a key is there.
    ///
    /// ```
    /// let set = sellumaq::Judy1::from([7]);
    /// assert!(set.contains(7) && set.contains(&7) && !set.contains(8));
    /// ```
    pub fn contains(&self, key: impl Borrow<K>) -> bool {
        let handle = self.handle;
        // SAFETY: the handle is this set's, lent for this call alone, which only reads.
        unsafe { sys::sellumaq_judy1_test(&handle, key.borrow().word()) }
    }

    /// Looks up many keys, as many as both slices have, and writes whether each is there to its place. Up to 16 keys go
    /// down the set side by side and wait for memory together. In large sets of words far apart that takes less time
    /// than [`contains`](Self::contains) for each, and in sets that stand in the caches more.
    ///
    /// ```
    /// let set = sellumaq::Judy1::from([3, 5]);
    /// let mut there = [false; 3];
    /// set.contains_many(&[5, 4, 3], &mut there);
    /// assert_eq!(there, [true, false, true]);
    /// ```
    pub fn contains_many(&self, keys: &[K], there: &mut [bool]) {
        let (handle, mut words) = (self.handle, [0; GROUP]);
        for (keys, there) in keys.chunks(GROUP).zip(there.chunks_mut(GROUP)) {
            for (word, key) in words.iter_mut().zip(keys) {
                *word = key.word();
            }
            // SAFETY: the handle is this set's, lent for this call alone, which only reads; as many words are there as
            // are told, and room for as many answers. Each that is written is 0 or 1.
            unsafe {
                sys::sellumaq_judy1_test_many(
                    &handle,
                    words.as_ptr(),
                    keys.len(),
                    there.as_mut_ptr(),
                    there.len(),
                );
            }
        }
    }

    /// A key, where it is there.
    ///
    /// ```
    /// let set = sellumaq::Judy1::from([7]);
    /// assert_eq!((set.get(7), set.get(8)), (Some(7), None));
    /// ```
    pub fn get(&self, key: impl Borrow<K>) -> Option<K> {
        let key = *key.borrow();
        self.contains(key).then_some(key)
    }

    /// Takes a key out, and answers it where it was there.
    ///
    /// ```
    /// let mut set = sellumaq::Judy1::from([7]);
    /// assert_eq!((set.take(7), set.take(7)), (Some(7), None));
    /// ```
    pub fn take(&mut self, key: impl Borrow<K>) -> Option<K> {
        let key = *key.borrow();
        self.remove(key).then_some(key)
    }

    /// Puts a key in, and answers it where it was there. It ends the program where there is no memory.
    ///
    /// ```
    /// let mut set = sellumaq::Judy1::from([7]);
    /// assert_eq!((set.replace(7), set.replace(8)), (Some(7), None));
    /// ```
    pub fn replace(&mut self, key: K) -> Option<K> {
        (!self.insert(key)).then_some(key)
    }

    /// The least key from a number on.
    ///
    /// ```
    /// let set = sellumaq::Judy1::from([3, 7]);
    /// assert_eq!((set.at_or_after(4), set.at_or_after(8)), (Some(7), None));
    /// ```
    #[must_use]
    pub fn at_or_after(&self, from: K) -> Option<K> {
        self.least(from.word()).map(K::of_word)
    }

    /// The greatest key up to a number.
    ///
    /// ```
    /// let set = sellumaq::Judy1::from([3, 7]);
    /// assert_eq!((set.at_or_before(6), set.at_or_before(2)), (Some(3), None));
    /// ```
    #[must_use]
    pub fn at_or_before(&self, from: K) -> Option<K> {
        self.greatest(from.word()).map(K::of_word)
    }

    /// The n-th key in ascending order, counted from 0. No way through the keys before it is made.
    ///
    /// ```
    /// let set = sellumaq::Judy1::from([3, 7]);
    /// assert_eq!((set.nth(1), set.nth(2)), (Some(7), None));
    /// ```
    #[must_use]
    pub fn nth(&self, n: usize) -> Option<K> {
        let place = (n as u64).checked_add(1)?;
        let found = self.search(sys::sellumaq_judy1_by_count, place);
        found.map(K::of_word)
    }

    /// The least key.
    ///
    /// ```
    /// assert_eq!(sellumaq::Judy1::from([7, 3]).first(), Some(3));
    /// ```
    #[must_use]
    pub fn first(&self) -> Option<K> {
        self.least(0).map(K::of_word)
    }

    /// The greatest key.
    ///
    /// ```
    /// assert_eq!(sellumaq::Judy1::from([7, 3]).last(), Some(7));
    /// ```
    #[must_use]
    pub fn last(&self) -> Option<K> {
        self.greatest(u64::MAX).map(K::of_word)
    }

    /// Takes the least key out.
    ///
    /// ```
    /// let mut set = sellumaq::Judy1::from([7, 3]);
    /// assert_eq!((set.pop_first(), set.len()), (Some(3), 1));
    /// ```
    pub fn pop_first(&mut self) -> Option<K> {
        self.first().and_then(|key| self.take(key))
    }

    /// Takes the greatest key out.
    ///
    /// ```
    /// let mut set = sellumaq::Judy1::from([7, 3]);
    /// assert_eq!((set.pop_last(), set.len()), (Some(7), 1));
    /// ```
    pub fn pop_last(&mut self) -> Option<K> {
        self.last().and_then(|key| self.take(key))
    }

    /// Takes out each key that isn't to be kept, by ascending key. Where `keep` panics, the keys that it didn't see
    /// stay.
    ///
    /// ```
    /// let mut set: sellumaq::Judy1 = (0..10).collect();
    /// set.retain(|key| key % 3 == 0);
    /// assert!(set.iter().eq([0, 3, 6, 9]));
    /// ```
    pub fn retain(&mut self, mut keep: impl FnMut(&K) -> bool) {
        self.extract_if(.., |key| !keep(key)).for_each(drop);
    }

    fn put_item(&mut self, key: K) {
        self.insert(key);
    }
}

impl<'a, K: Key> Extend<&'a K> for Judy1<K> {
    fn extend<I: IntoIterator<Item = &'a K>>(&mut self, keys: I) {
        self.extend(keys.into_iter().copied());
    }
}

impl<K: Key> fmt::Debug for Judy1<K> {
    fn fmt(&self, to: &mut fmt::Formatter<'_>) -> fmt::Result {
        to.debug_set().entries(self).finish()
    }
}
