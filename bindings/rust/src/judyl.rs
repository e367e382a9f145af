//! Maps from words to words, their entries and iterators.
use crate::array::array;
use crate::entry::entries;
use crate::ordered::ordered_map;
use crate::saved::{saved, OfTypes};
use crate::sieve::Sieve;
use crate::slots::slot_walks;
use crate::sorted::at_once;
use crate::span::Span;
use crate::two::of_two;
use crate::types::{Key, Value, ZeroValue};
use crate::walk::walks;
use crate::way::{Room, Told, Walked, Way};
use crate::words::{collected, word_array};
use crate::{no_room, NoMemory};
use sellumaq_sys as sys;
use std::borrow::Borrow;
use std::fmt;
use std::iter::FusedIterator;
use std::mem::MaybeUninit;
use std::ops::{Index, RangeBounds, RangeInclusive};
use std::ptr::{null_mut, NonNull};

array!(
    /// An ordered map from words to words, or to and from others that fit one: a `JudyL` has keys and values of `u64`,
    /// a `JudyL<char>` values of `char`, and a `JudyL<char, i32>` keys of `i32` besides.
    ///
    /// ```
    /// use sellumaq::JudyL;
    ///
    /// let mut map = JudyL::from([(5, 50), (3, 30)]);
    /// *map.entry(3).or_insert(0) += 1;
    /// assert_eq!(map.insert(5, 51), Some(50));
    /// assert_eq!(format!("{map:?}"), "{3: 31, 5: 51}");
    ///
    /// let letters: JudyL<char, i32> = [(1, 'b'), (-1, 'a')].into_iter().collect();
    /// assert_eq!(letters.first_key_value(), Some((-1, 'a')));
    /// assert_eq!(letters[1], 'b');
    /// ```
    JudyL<V: Value = u64, K: Key = u64> over sellumaq_judyl, sellumaq_judyl_len, sellumaq_judyl_bytes, sellumaq_judyl_free;
    "let array = sellumaq::JudyL::from([(1, 10), (2, 20), (10, 30)]);"
);

word_array!(
    JudyL<V: Value, K: Key>; sys::sellumaq_pair, sellumaq_judyl_walk, sellumaq_judyl_walk_down;
    sellumaq_judyl_count, sellumaq_judyl_first_empty, sellumaq_judyl_last_empty,
    sellumaq_judyl_remove_range, sellumaq_judyl_retain_range, sellumaq_judyl_copy_range, sellumaq_judyl_split_off;
    "let array = sellumaq::JudyL::from([(1, 10), (2, 20), (10, 30)]);"
);

collected!(
    JudyL<V: Value, K: Key>; (K, V), (u64, u64); sellumaq_judyl_append;
    "let array = sellumaq::JudyL::from([(1, 10), (2, 20), (10, 30)]);"
);

of_two!(
    JudyL<V: Value, K: Key>; (K, V), |pair| pair.0; contains_key, get_key_value; sellumaq_judyl,
    sellumaq_judyl_copy, sellumaq_judyl_union, sellumaq_judyl_intersection, sellumaq_judyl_difference, sellumaq_judyl_symmetric_difference;
    sellumaq_judyl_intersection_count, sellumaq_judyl_is_subset, sellumaq_judyl_is_disjoint, sellumaq_judyl_has_same_keys;
    NoMemory, NoMemory::of, no_room;
    "[`NoMemory`] where there is none for it; there the sign ends the program.",
    "let (a, b) = (sellumaq::JudyL::from([(1, 10), (2, 20)]), sellumaq::JudyL::from([(2, 21), (3, 31)]));"
);

at_once!(
    JudyL<V: Value, K: Key>; (K, V); sys::sellumaq_pair, sellumaq_judyl_from_sorted, sellumaq_judyl_from_unsorted;
    "let array = sellumaq::JudyL::from_sorted([(1, 10), (2, 20), (10, 30)]);",
    "assert!(sellumaq::JudyL::from_sorted([(2, 20), (1, 10)]).is_err());",
    "let array = sellumaq::JudyL::from_unsorted([(3, 30), (1, 10), (3, 31)]);"
);

walks!(
    JudyL<V: Value = u64, K: Key = u64> through Way<sys::sellumaq_pair>; (K, V);
    "let array = sellumaq::JudyL::from([(1, 10), (2, 20), (10, 30)]);"
);

slot_walks!(
    JudyL<V: Value = u64, K: Key = u64> through SlotSteps; K;
    "let mut map = sellumaq::JudyL::from([(1, 10), (2, 20)]);"
);

ordered_map!(
    JudyL<V: Value = u64, K: Key = u64>; K, Borrow<K>;
    "let mut map = sellumaq::JudyL::from([(1, 10), (2, 20)]);", "1", "1", "2"
);

entries!(
    JudyL<V: Value, K: Key> with [], Entry<V: Value = u64, K: Key = u64>;
    judyl, NoMemory, no_room; K, std::convert::identity => &K;
    "let mut map = sellumaq::JudyL::from([(1, 10), (2, 20)]);", "1", "3", "1", "3"
);

/// How many keys [`JudyL::get_many`] hands to C at a time.
const GROUP: usize = 64;

/// A search of C from a word for another.
type Search = unsafe extern "C" fn(*const sys::sellumaq_judyl, u64, *mut u64) -> bool;

/// A search of C from a word, or by a place, for a key with its value.
type EntrySearch =
    unsafe extern "C" fn(*const sys::sellumaq_judyl, u64, *mut u64, *mut u64) -> bool;

/// A search of C from a word for a key with the slot of its value.
type SlotSearch =
    unsafe extern "C" fn(*const sys::sellumaq_judyl, u64, *mut u64, *mut *mut u64) -> bool;

/// A map whose slots are lent by a way, as that way asks it: to bring its next keys no value beyond them is read, since
/// such a one may be lent already.
struct Lending<'a, V: Value, K: Key>(&'a JudyL<V, K>);

impl<V: Value, K: Key> Lending<'_, V, K> {
    // The one key that a search finds from one word up to another, where it finds one there. Its value isn't read.
    fn bring_one(
        &self,
        call: Search,
        at: u64,
        words: RangeInclusive<u64>,
        only: &mut MaybeUninit<sys::sellumaq_pair>,
    ) -> usize {
        let found = self.0.search(call, at).filter(|key| words.contains(key));
        found.map(|key| only.write(Told::of((key, 0)))).iter().len()
    }
}

impl<V: Value, K: Key> Walked for Lending<'_, V, K> {
    type Told = sys::sellumaq_pair;

    fn walk(&self, from: u64, to: u64, room: &mut Room<sys::sellumaq_pair>) -> usize {
        if let [only] = room {
            return self.bring_one(sys::sellumaq_judyl_first, from, from..=to, only);
        }
        let count = self.0.count_words(from, to).min(room.len());
        self.0.walk(from, to, &mut room[..count])
    }

    fn walk_down(&self, from: u64, to: u64, room: &mut Room<sys::sellumaq_pair>) -> usize {
        if let [only] = room {
            return self.bring_one(sys::sellumaq_judyl_last, to, from..=to, only);
        }
        let count = self.0.count_words(from, to).min(room.len());
        self.0.walk_down(from, to, &mut room[..count])
    }

    fn count_between(&self, from: u64, to: u64) -> u64 {
        self.0.count_between(from, to)
    }
}

/// A way from slot to slot. What is told of values on it is of no use: they may have changed since they were read.
#[derive(Clone)]
struct SlotSteps(Way<sys::sellumaq_pair>);

impl SlotSteps {
    fn next<V: Value, K: Key>(&mut self, map: &JudyL<V, K>) -> Option<(K, NonNull<V>)> {
        let key = K::of_word(self.0.next(&Lending(map))?.0);
        Some((key, map.find_slot(&key)?))
    }

    fn next_back<V: Value, K: Key>(&mut self, map: &JudyL<V, K>) -> Option<(K, NonNull<V>)> {
        let key = K::of_word(self.0.next_back(&Lending(map))?.0);
        Some((key, map.find_slot(&key)?))
    }
}

saved!(
    JudyL<V: Value, K: Key>; sellumaq_judyl_dump, sellumaq_judyl_dump_size, sellumaq_judyl_load, sellumaq_judyl_save, sellumaq_judyl_open;
    "let array = sellumaq::JudyL::from([(1, 10), (2, 20), (10, 30)]);", "<sellumaq::JudyL>"
);

impl<V: Value, K: Key> OfTypes for JudyL<V, K> {
    fn is_of_types(&self) -> Result<bool, NoMemory> {
        let last = self.search(sys::sellumaq_judyl_last, u64::MAX);
        let are_keys = last.map_or(true, |key| key <= K::LAST);
        let pairs = Way::of(Span::of::<K>(..));
        Ok(are_keys
            && (V::EACH || pairs.fold(self, true, |held, (_, bits)| held && V::is_held(bits))))
    }
}

// Keys and values as the library knows them, and what takes its pointers.
impl<V: Value, K: Key> JudyL<V, K> {
    fn item((word, bits): (u64, u64)) -> (K, V) {
        (K::of_word(word), V::of_bits(bits))
    }

    fn told((key, value): (K, V)) -> (u64, u64) {
        (key.word(), value.bits())
    }

    fn least(&self, from: u64) -> Option<(u64, u64)> {
        self.search_entry(sys::sellumaq_judyl_first_entry, from)
    }

    fn greatest(&self, up_to: u64) -> Option<(u64, u64)> {
        self.search_entry(sys::sellumaq_judyl_last_entry, up_to)
    }

    fn search_entry(&self, call: EntrySearch, from: u64) -> Option<(u64, u64)> {
        let (handle, mut key, mut value) = (self.handle, 0, 0);
        // SAFETY: the call is one of `sellumaq_sys` for maps of words, which only reads; the handle is this map's, lent
        // for this call alone, and the words this function's.
        unsafe { call(&handle, from, &mut key, &mut value) }.then_some((key, value))
    }

    fn search_slot(&mut self, call: SlotSearch, from: u64) -> Option<OccupiedEntry<'_, V, K>> {
        let (mut key, mut slot) = (0, null_mut());
        // SAFETY: as in `search_entry`.
        let found = unsafe { call(&self.handle, from, &mut key, &mut slot) };
        let slot = found.then_some(slot.cast()).and_then(NonNull::new)?;
        Some(OccupiedEntry {
            map: self,
            key: K::of_word(key),
            slot,
        })
    }

    /// The slot of a key. It may be written to where the map is borrowed to be changed.
    fn find_slot(&self, key: &K) -> Option<NonNull<V>> {
        let (handle, mut slot) = (self.handle, null_mut());
        // SAFETY: the handle is this map's, lent for this call alone, which only reads.
        let found = unsafe { sys::sellumaq_judyl_slot(&handle, key.word(), &mut slot) };
        found.then_some(slot.cast()).and_then(NonNull::new)
    }

    /// The slot of a key, which is put in where it is absent. Then the slot is all zeros, which need be no value.
    fn make_slot(&mut self, key: &K) -> Result<NonNull<V>, NoMemory> {
        let mut slot = null_mut();
        // SAFETY: the handle is this map's, lent for this call alone.
        let made = unsafe { sys::sellumaq_judyl_ins(&mut self.handle, key.word(), &mut slot) };
        let slot = made.then_some(slot.cast()).and_then(NonNull::new);
        slot.ok_or(NoMemory)
    }

    fn delete(&mut self, key: &K) {
        self.delete_word(key.word());
    }

    fn delete_word(&mut self, word: u64) {
        // SAFETY: the handle is this map's, lent for this call alone.
        unsafe { sys::sellumaq_judyl_del(&mut self.handle, word) };
    }

    fn owned(key: &impl Borrow<K>) -> K {
        *key.borrow()
    }
}

impl<V: Value, K: Key> JudyL<V, K> {
    /// Gives a key a value, and answers the one it had. It ends the program where there is no memory, as std's maps do.
    ///
    /// ```
    /// let mut map = sellumaq::JudyL::new();
    /// assert_eq!((map.insert(3, 30), map.insert(3, 31)), (None, Some(30)));
    /// ```
    pub fn insert(&mut self, key: K, value: V) -> Option<V> {
        self.try_insert(key, value).unwrap_or_else(no_room)
    }

    /// Gives a key a value, and answers the one it had. It is one way down the map.
    ///
    /// # Errors
    ///
    /// [`NoMemory`] where there is none for a new key, and the map is as it was. A key that is there is never refused.
    ///
    /// ```
    /// let mut map = sellumaq::JudyL::new();
    /// assert_eq!(map.try_insert(3, 30), Ok(None));
    /// ```
    pub fn try_insert(&mut self, key: K, value: V) -> Result<Option<V>, NoMemory> {
        let (key, value, mut was) = (key.word(), value.bits(), 0);
        // SAFETY: the handle is this map's, lent for this call alone.
        match unsafe { sys::sellumaq_judyl_insert(&mut self.handle, key, value, &mut was) } {
            sys::SELLUMAQ_NO_MEMORY => Err(NoMemory),
            sys::SELLUMAQ_ADDED => Ok(None),
            _ => Ok(Some(V::of_bits(was))),
        }
    }

    /// Gives a key a value, and answers whether the key is new: one way down the map, also where it is absent. It ends
    /// the program where there is no memory.
    ///
    /// ```
    /// let mut map = sellumaq::JudyL::new();
    /// assert!(map.put(3, 30) && !map.put(3, 31));
    /// ```
    pub fn put(&mut self, key: K, value: V) -> bool {
        self.try_put(key, value).unwrap_or_else(no_room)
    }

    /// Gives a key a value, and answers whether the key is new.
    ///
    /// # Errors
    ///
    /// As those of [`try_insert`](Self::try_insert).
    ///
    /// ```
    /// let mut map = sellumaq::JudyL::new();
    /// assert_eq!(map.try_put(3, 30), Ok(true));
    /// ```
    pub fn try_put(&mut self, key: K, value: V) -> Result<bool, NoMemory> {
        let (key, value) = (key.word(), value.bits());
        // SAFETY: the handle is this map's, lent for this call alone.
        match unsafe { sys::sellumaq_judyl_put(&mut self.handle, key, value) } {
            sys::SELLUMAQ_NO_MEMORY => Err(NoMemory),
            told => Ok(told == sys::SELLUMAQ_ADDED),
        }
    }

    /// The value of a key, to read and to change; the key is put in with the default value where it is absent. By this
    /// an absent key takes a way down the map less than by [`entry`](Self::entry), and one that is there a way more.
    ///
    /// # Errors
    ///
    /// As those of [`try_insert`](Self::try_insert).
    ///
    /// ```
    /// let mut map = sellumaq::JudyL::new();
    /// *map.slot(3).unwrap() += 1;
    /// assert_eq!(map.get(3), Some(1));
    /// ```
    pub fn slot(&mut self, key: K) -> Result<&mut V, NoMemory>
    where
        V: ZeroValue,
    {
        let slot = self.make_slot(&key)?;
        // SAFETY: a slot lives until the map is changed, which stays borrowed as long as the reference. It holds a
        // value, also where it is all zeros.
        Ok(unsafe { &mut *slot.as_ptr() })
    }

    /// The value of a key.
    ///
    /// ```
    /// let map = sellumaq::JudyL::from([(3, 30)]);
    /// assert_eq!((map.get(3), map.get(&4)), (Some(30), None));
    /// ```
    pub fn get(&self, key: impl Borrow<K>) -> Option<V> {
        let (handle, key, mut value) = (self.handle, key.borrow().word(), 0);
        // SAFETY: the handle is this map's, lent for this call alone, which only reads; the word is this function's.
        let found = unsafe { sys::sellumaq_judyl_get(&handle, key, &mut value) };
        found.then(|| V::of_bits(value))
    }

    /// Looks up many keys, as many as both slices have, and writes the value of each to its place; `None` where a key
    /// is absent. Up to 16 keys go down the map side by side and wait for memory together. In large maps of words far
    /// apart that takes less time than [`get`](Self::get) for each, and in maps that stand in the caches more.
    ///
    /// ```
    /// let map = sellumaq::JudyL::from([(3, 30), (5, 50)]);
    /// let mut values = [None; 3];
    /// map.get_many(&[5, 4, 3], &mut values);
    /// assert_eq!(values, [Some(50), None, Some(30)]);
    /// ```
    pub fn get_many(&self, keys: &[K], values: &mut [Option<V>]) {
        let (handle, mut words) = (self.handle, [0; GROUP]);
        let mut found = [sys::sellumaq_found { value: 0, there: 0 }; GROUP];
        for (keys, values) in keys.chunks(GROUP).zip(values.chunks_mut(GROUP)) {
            for (word, key) in words.iter_mut().zip(keys) {
                *word = key.word();
            }
            // SAFETY: the handle is this map's, lent for this call alone, which only reads; as many words are there as
            // are told, and there is room for as many answers.
            let told = unsafe {
                sys::sellumaq_judyl_get_many(
                    &handle,
                    words.as_ptr(),
                    keys.len(),
                    found.as_mut_ptr(),
                    GROUP,
                )
            };
            for (value, told) in values.iter_mut().zip(&found[..told]) {
                *value = (told.there == 1).then(|| V::of_bits(told.value));
            }
        }
    }

    /// The value of a key, to change.
    ///
    /// ```
    /// let mut map = sellumaq::JudyL::from([(3, 30)]);
    /// *map.get_mut(3).unwrap() += 1;
    /// assert_eq!(map[3], 31);
    /// ```
    pub fn get_mut(&mut self, key: impl Borrow<K>) -> Option<&mut V> {
        let slot = self.find_slot(key.borrow())?;
        // SAFETY: a slot lives until the map is changed, which stays borrowed as long as the reference. That of a key
        // that is there holds a value.
        Some(unsafe { &mut *slot.as_ptr() })
    }

    /// Whether a key is there.
    ///
    /// ```
    /// let map = sellumaq::JudyL::from([(3, 30)]);
    /// assert!(map.contains_key(3) && !map.contains_key(&4));
    /// ```
    pub fn contains_key(&self, key: impl Borrow<K>) -> bool {
        self.get(key).is_some()
    }

    /// Takes a key out, and answers the value it had.
    ///
    /// ```
    /// let mut map = sellumaq::JudyL::from([(3, 30)]);
    /// assert_eq!((map.remove(3), map.remove(&3)), (Some(30), None));
    /// ```
    pub fn remove(&mut self, key: impl Borrow<K>) -> Option<V> {
        let (key, mut was) = (key.borrow().word(), 0);
        // SAFETY: the handle is this map's, lent for this call alone.
        let found = unsafe { sys::sellumaq_judyl_remove(&mut self.handle, key, &mut was) };
        found.then(|| V::of_bits(was))
    }

    /// The pair of the least key from a number on.
    ///
    /// ```
    /// let map = sellumaq::JudyL::from([(3, 30), (7, 70)]);
    /// assert_eq!((map.at_or_after(4), map.at_or_after(8)), (Some((7, 70)), None));
    /// ```
    #[must_use]
    pub fn at_or_after(&self, from: K) -> Option<(K, V)> {
        self.least(from.word()).map(Self::item)
    }

    /// The pair of the greatest key up to a number.
    ///
    /// ```
    /// let map = sellumaq::JudyL::from([(3, 30), (7, 70)]);
    /// assert_eq!((map.at_or_before(6), map.at_or_before(2)), (Some((3, 30)), None));
    /// ```
    #[must_use]
    pub fn at_or_before(&self, from: K) -> Option<(K, V)> {
        self.greatest(from.word()).map(Self::item)
    }

    /// The pair of the n-th key in ascending order, counted from 0. No way through the keys before it is made.
    ///
    /// ```
    /// let map = sellumaq::JudyL::from([(3, 30), (7, 70)]);
    /// assert_eq!((map.nth(1), map.nth(2)), (Some((7, 70)), None));
    /// ```
    #[must_use]
    pub fn nth(&self, n: usize) -> Option<(K, V)> {
        let place = (n as u64).checked_add(1)?;
        let found = self.search_entry(sys::sellumaq_judyl_by_count_entry, place);
        found.map(Self::item)
    }

    /// The pair of the least key.
    ///
    /// ```
    /// assert_eq!(sellumaq::JudyL::from([(3, 30), (7, 70)]).first_key_value(), Some((3, 30)));
    /// ```
    #[must_use]
    pub fn first_key_value(&self) -> Option<(K, V)> {
        self.least(0).map(Self::item)
    }

    /// The pair of the greatest key.
    ///
    /// ```
    /// assert_eq!(sellumaq::JudyL::from([(3, 30), (7, 70)]).last_key_value(), Some((7, 70)));
    /// ```
    #[must_use]
    pub fn last_key_value(&self) -> Option<(K, V)> {
        self.greatest(u64::MAX).map(Self::item)
    }

    /// The entry of the least key.
    ///
    /// ```
    /// let mut map = sellumaq::JudyL::from([(3, 30), (7, 70)]);
    /// assert_eq!(map.first_entry().unwrap().remove_entry(), (3, 30));
    /// ```
    pub fn first_entry(&mut self) -> Option<OccupiedEntry<'_, V, K>> {
        self.search_slot(sys::sellumaq_judyl_first_slot, 0)
    }

    /// The entry of the greatest key.
    ///
    /// ```
    /// let mut map = sellumaq::JudyL::from([(3, 30), (7, 70)]);
    /// assert_eq!(map.last_entry().unwrap().insert(71), 70);
    /// ```
    pub fn last_entry(&mut self) -> Option<OccupiedEntry<'_, V, K>> {
        self.search_slot(sys::sellumaq_judyl_last_slot, u64::MAX)
    }

    /// The pairs of a range of keys, by ascending key, their values to change.
    ///
    /// ```
    /// let mut map = sellumaq::JudyL::from([(3, 30), (7, 70)]);
    /// map.range_mut(5..).for_each(|(_, value)| *value += 1);
    /// assert!(map.values().eq([30, 71]));
    /// ```
    pub fn range_mut(&mut self, range: impl RangeBounds<K>) -> RangeMut<'_, V, K> {
        RangeMut::of(self, SlotSteps(Way::of(Span::of(range))))
    }

    /// Takes out each key that isn't to be kept, by ascending key; `keep` may change the values. Where it panics, that
    /// key and those that it didn't see stay as they were.
    ///
    /// ```
    /// let mut map: sellumaq::JudyL = (0..10).map(|n| (n, n)).collect();
    /// map.retain(|key, value| {
    ///     *value *= 2;
    ///     key % 5 == 0
    /// });
    /// assert!(map.iter().eq([(0, 0), (5, 10)]));
    /// ```
    pub fn retain(&mut self, mut keep: impl FnMut(&K, &mut V) -> bool) {
        let extracted = self.extract_if(.., |key, value| !keep(key, value));
        extracted.for_each(drop);
    }

    /// Takes those keys of a range out that are chosen, one at each step of the iterator, by ascending key; `chosen`
    /// may change the values. Where the iterator is dropped, the others stay.
    ///
    /// ```
    /// let mut map: sellumaq::JudyL = (0..10).map(|n| (n, n * n)).collect();
    /// assert!(map.extract_if(4.., |key, _| key % 3 == 0).eq([(6, 36), (9, 81)]));
    /// assert_eq!(map.len(), 8);
    /// ```
    pub fn extract_if<F: FnMut(&K, &mut V) -> bool>(
        &mut self,
        range: impl RangeBounds<K>,
        chosen: F,
    ) -> ExtractIf<'_, V, K, F> {
        ExtractIf {
            sieve: Sieve::of(self, range),
            chosen,
        }
    }

    fn put_item(&mut self, (key, value): (K, V)) {
        self.put(key, value);
    }
}

/// The pairs that [`JudyL::extract_if`] takes out.
///
/// ```
/// let mut map = sellumaq::JudyL::from([(1, 10), (2, 20)]);
/// assert_eq!(map.extract_if(.., |key, _| *key > 1).next(), Some((2, 20)));
/// ```
#[must_use = "iterators are lazy and do nothing unless consumed"]
pub struct ExtractIf<'a, V: Value, K: Key, F> {
    sieve: Sieve<'a, JudyL<V, K>>,
    chosen: F,
}

impl<V: Value, K: Key, F: FnMut(&K, &mut V) -> bool> Iterator for ExtractIf<'_, V, K, F> {
    type Item = (K, V);

    fn next(&mut self) -> Option<(K, V)> {
        while let Some((word, bits)) = self.sieve.next() {
            let (key, mut value) = (K::of_word(word), V::of_bits(bits));
            if (self.chosen)(&key, &mut value) {
                self.sieve.goes(word);
                return Some((key, value));
            }
            if value.bits() != bits {
                if let Some(slot) = self.sieve.array().get_mut(key) {
                    *slot = value;
                }
            }
            self.sieve.stays(Told::of((word, value.bits())));
        }
        None
    }
}

impl<V: Value, K: Key, F: FnMut(&K, &mut V) -> bool> FusedIterator for ExtractIf<'_, V, K, F> {}

/// Where the key is absent it panics, as std's maps do.
impl<V: Value, K: Key, Q: Borrow<K>> Index<Q> for JudyL<V, K> {
    type Output = V;

    fn index(&self, key: Q) -> &V {
        let slot = self
            .find_slot(key.borrow())
            .expect("no entry found for key");
        // SAFETY: as in `get_mut`.
        unsafe { &*slot.as_ptr() }
    }
}

impl<'a, V: Value, K: Key> Extend<(&'a K, &'a V)> for JudyL<V, K> {
    fn extend<I: IntoIterator<Item = (&'a K, &'a V)>>(&mut self, pairs: I) {
        self.extend(pairs.into_iter().map(|(key, value)| (*key, *value)));
    }
}

impl<V: Value, K: Key> fmt::Debug for JudyL<V, K> {
    fn fmt(&self, to: &mut fmt::Formatter<'_>) -> fmt::Result {
        to.debug_map().entries(self).finish()
    }
}
