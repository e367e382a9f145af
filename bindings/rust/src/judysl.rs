//! Maps from strings to words, their entries and iterators.
use crate::array::array;
use crate::edge::Edge;
use crate::entry::entries;
use crate::keyed::{keyed_map, InsertError};
use crate::ordered::ordered_map;
use crate::saved::{saved, OfTypes};
use crate::search::{self, Search};
use crate::slots::slot_walks;
use crate::two::of_two;
use crate::types::{Value, ZeroValue};
use crate::walk::walks;
use crate::{no_room, NoMemory};
use sellumaq_sys as sys;
use std::cmp::Ordering;
use std::fmt;
use std::hash::{Hash, Hasher};
use std::iter::FusedIterator;
use std::mem::{swap, take};
use std::ops::{Bound, Index};
use std::ptr::{null_mut, NonNull};

mod sorted;
mod way;

use way::{SlotSteps, Steps, Way, DOWN, DOWN_TO_SLOTS, UP, UP_TO_SLOTS};

pub use crate::edge::StringRange;

array!(
    /// An ordered map from strings to words, or to other values that fit one, as those of a `JudySl<char>` are. A key
    /// is a string of any number of bytes, none of them zero; keys are ordered by their bytes, as text in UTF-8 is by
    /// its characters.
    ///
    /// ```
    /// let ages = sellumaq::JudySl::from([("Ada", 36), ("Alan", 41), ("Grace", 85)]);
    /// assert_eq!(ages["Alan"], 41);
    /// assert_eq!(ages.range("B"..).next(), Some((b"Grace".to_vec(), 85)));
    /// ```
    JudySl<V: Value = u64> over sellumaq_judysl, sellumaq_judysl_len, sellumaq_judysl_bytes, sellumaq_judysl_free;
    "let array = sellumaq::JudySl::from([(\"a\", 10), (\"b\", 20), (\"c\", 30)]);"
);

keyed_map!(
    JudySl; sellumaq_judysl_ins, sellumaq_judysl_insert, sellumaq_judysl_get, sellumaq_judysl_slot, sellumaq_judysl_del, sellumaq_judysl_remove;
    "let mut map = sellumaq::JudySl::from([(\"a\", 10)]);"
);

walks!(
    JudySl<V: Value = u64> through Way; (Vec<u8>, V);
    "let array = sellumaq::JudySl::from([(\"a\", 10), (\"b\", 20), (\"c\", 30)]);"
);

slot_walks!(
    JudySl<V: Value = u64> through SlotSteps; Vec<u8>;
    "let mut map = sellumaq::JudySl::from([(\"a\", 10), (\"b\", 20)]);"
);

ordered_map!(
    JudySl<V: Value = u64>; Vec<u8>, AsRef<[u8]>;
    "let mut map = sellumaq::JudySl::from([(\"a\", 10), (\"b\", 20)]);", "\"a\"", "b\"a\".to_vec()", "b\"b\".to_vec()"
);

entries!(
    JudySl<V: Value> with [K: AsRef<[u8]>], Entry<K: AsRef<[u8]>, V: Value = u64>;
    judysl, InsertError, InsertError::end; K, K::as_ref => &[u8];
    "let mut map = sellumaq::JudySl::from([(\"a\", 10), (\"b\", 20)]);", "\"a\"", "\"c\"", "b\"a\"", "b\"c\""
);

saved!(
    JudySl<V: Value>; sellumaq_judysl_dump, sellumaq_judysl_dump_size, sellumaq_judysl_load, sellumaq_judysl_save, sellumaq_judysl_open;
    "let array = sellumaq::JudySl::from([(\"a\", 10), (\"b\", 20)]);", "<sellumaq::JudySl>"
);

impl<V: Value> OfTypes for JudySl<V> {
    fn is_of_types(&self) -> Result<bool, NoMemory> {
        let mut entries = Way::of(&(..));
        while let Some((_, bits)) = if V::EACH {
            None
        } else {
            entries.next_entry(self)
        } {
            if !V::is_held(bits) {
                return Ok(false);
            }
        }
        Ok(true)
    }
}

of_two!(
    JudySl<V: Value>; (Vec<u8>, V), |pair| &pair.0; contains_key, get_key_value; sellumaq_judysl,
    sellumaq_judysl_copy, sellumaq_judysl_union, sellumaq_judysl_intersection, sellumaq_judysl_difference, sellumaq_judysl_symmetric_difference;
    sellumaq_judysl_intersection_count, sellumaq_judysl_is_subset, sellumaq_judysl_is_disjoint, sellumaq_judysl_has_same_keys;
    InsertError, std::convert::identity, InsertError::end;
    "[`InsertError`]: `NoMemory` where there is none for it, `Full` for more than 4,294,967,295 keys; there the sign ends the program.",
    "let (a, b) = (sellumaq::JudySl::from([(\"a\", 10), (\"b\", 20)]), sellumaq::JudySl::from([(\"b\", 21), (\"c\", 31)]));"
);

impl<V: Value> JudySl<V> {
    // The map of the keys that another with many more lacks: the library looks up each by itself.
    fn few_lacking(&self, other: &Self) -> Result<Self, InsertError> {
        self.made_with(other, sys::sellumaq_judysl_difference)
    }

    fn item((key, bits): (Vec<u8>, u64)) -> (Vec<u8>, V) {
        (key, V::of_bits(bits))
    }

    fn owned(key: &impl AsRef<[u8]>) -> Vec<u8> {
        key.as_ref().to_vec()
    }

    // The pair of the key that is nearest to an end.
    fn nearest(&self, end: &Edge, searches: &[Search<u64>; 2]) -> Option<(Vec<u8>, V)> {
        let mut bits = 0;
        // SAFETY: the map is borrowed, and the searches are this kind's.
        let key = unsafe { end.find(self.handle, searches, &mut bits) }?;
        Some((key, V::of_bits(bits)))
    }

    // The entry of that key.
    fn nearest_entry(
        &mut self,
        end: &Edge,
        searches: &[Search<*mut u64>; 2],
    ) -> Option<OccupiedEntry<'_, Vec<u8>, V>> {
        let mut slot = null_mut();
        // SAFETY: as in `nearest`.
        let key = unsafe { end.find(self.handle, searches, &mut slot) }?;
        let slot = NonNull::new(slot.cast())?;
        Some(OccupiedEntry {
            map: self,
            key,
            slot,
        })
    }

    /// The pair of the least key.
    ///
    /// ```
    /// let map = sellumaq::JudySl::from([("a", 10), ("b", 20)]);
    /// assert_eq!(map.first_key_value(), Some((b"a".to_vec(), 10)));
    /// ```
    #[must_use]
    pub fn first_key_value(&self) -> Option<(Vec<u8>, V)> {
        self.nearest(&Edge::lower(Bound::Unbounded), &UP)
    }

    /// The pair of the greatest key.
    ///
    /// ```
    /// let map = sellumaq::JudySl::from([("a", 10), ("b", 20)]);
    /// assert_eq!(map.last_key_value(), Some((b"b".to_vec(), 20)));
    /// ```
    #[must_use]
    pub fn last_key_value(&self) -> Option<(Vec<u8>, V)> {
        self.nearest(&Edge::upper(Bound::Unbounded), &DOWN)
    }

    /// The entry of the least key.
    ///
    /// ```
    /// let mut map = sellumaq::JudySl::from([("a", 10), ("b", 20)]);
    /// assert_eq!(map.first_entry().unwrap().remove(), 10);
    /// ```
    pub fn first_entry(&mut self) -> Option<OccupiedEntry<'_, Vec<u8>, V>> {
        self.nearest_entry(&Edge::lower(Bound::Unbounded), &UP_TO_SLOTS)
    }

    /// The entry of the greatest key.
    ///
    /// ```
    /// let mut map = sellumaq::JudySl::from([("a", 10), ("b", 20)]);
    /// assert_eq!(map.last_entry().unwrap().insert(21), 20);
    /// ```
    pub fn last_entry(&mut self) -> Option<OccupiedEntry<'_, Vec<u8>, V>> {
        self.nearest_entry(&Edge::upper(Bound::Unbounded), &DOWN_TO_SLOTS)
    }

    /// The pair of the least key from a string on, which may be any.
    ///
    /// ```
    /// let map = sellumaq::JudySl::from([("a", 10), ("b", 20)]);
    /// assert_eq!(map.at_or_after("aa"), Some((b"b".to_vec(), 20)));
    /// ```
    #[must_use]
    pub fn at_or_after(&self, from: impl AsRef<[u8]>) -> Option<(Vec<u8>, V)> {
        self.nearest(&Edge::lower(Bound::Included(from.as_ref())), &UP)
    }

    /// The pair of the greatest key up to a string, which may be any.
    ///
    /// ```
    /// let map = sellumaq::JudySl::from([("a", 10), ("b", 20)]);
    /// assert_eq!(map.at_or_before("aa"), Some((b"a".to_vec(), 10)));
    /// ```
    #[must_use]
    pub fn at_or_before(&self, from: impl AsRef<[u8]>) -> Option<(Vec<u8>, V)> {
        self.nearest(&Edge::upper(Bound::Included(from.as_ref())), &DOWN)
    }

    /// The pairs by ascending key.
    ///
    /// ```
    /// let map = sellumaq::JudySl::from([("b", 20), ("a", 10)]);
    /// assert!(map.iter().eq([(b"a".to_vec(), 10), (b"b".to_vec(), 20)]));
    /// ```
    pub fn iter(&self) -> Iter<'_, V> {
        Iter {
            range: self.range(..),
            left: self.len(),
        }
    }

    /// The pairs of a range of keys, by ascending key. The ends may be any strings. A range that ends before it begins
    /// holds nothing.
    ///
    /// ```
    /// let map = sellumaq::JudySl::from([("a", 10), ("b", 20), ("c", 30)]);
    /// assert_eq!(map.range("aa"..="b").next(), Some((b"b".to_vec(), 20)));
    /// assert_eq!(map.range(.."b").count(), 1);
    /// ```
    pub fn range(&self, range: impl StringRange) -> Range<'_, V> {
        Range {
            array: self,
            way: Way::of(&range),
        }
    }

    /// The pairs whose keys begin with some bytes, by ascending key.
    ///
    /// ```
    /// let map = sellumaq::JudySl::from([("a", 10), ("ab", 20), ("b", 30)]);
    /// assert!(map.with_prefix("a").map(|(_, value)| value).eq([10, 20]));
    /// ```
    pub fn with_prefix(&self, prefix: impl AsRef<[u8]>) -> Range<'_, V> {
        let prefix = prefix.as_ref();
        let behind = prefix.iter().rposition(|byte| *byte < 255).map(|at| {
            let mut behind = prefix[..=at].to_vec();
            behind[at] += 1;
            behind
        });
        let end = behind.map_or(Bound::Unbounded, Bound::Excluded);
        self.range((Bound::Included(prefix.to_vec()), end))
    }

    /// The longest key that some bytes begin with, and its value. The bytes may be any; the empty key begins all.
    ///
    /// ```
    /// let routes = sellumaq::JudySl::from([("10.", 1), ("10.1.", 2)]);
    /// assert_eq!(routes.longest_prefix("10.1.2.3"), Some((&b"10.1."[..], 2)));
    /// assert_eq!(routes.longest_prefix("11.1"), None);
    /// ```
    #[must_use]
    pub fn longest_prefix<'b, B: AsRef<[u8]> + ?Sized>(
        &self,
        bytes: &'b B,
    ) -> Option<(&'b [u8], V)> {
        let (handle, bytes) = (self.handle, bytes.as_ref());
        let (mut length, mut bits) = (0, 0);
        // SAFETY: the handle is this map's, lent for this call alone, which only reads; the bytes are a slice's, and
        // the two words this function's.
        let found = unsafe {
            sys::sellumaq_judysl_longest_prefix(
                &handle,
                bytes.as_ptr(),
                bytes.len(),
                &mut length,
                &mut bits,
            )
        };
        found.then(|| (&bytes[..length], V::of_bits(bits)))
    }

    /// The pairs of a range of keys, by ascending key, their values to change.
    ///
    /// ```
    /// let mut map = sellumaq::JudySl::from([("a", 10), ("b", 20)]);
    /// map.range_mut("b"..).for_each(|(_, value)| *value += 1);
    /// assert_eq!(map["b"], 21);
    /// ```
    pub fn range_mut(&mut self, range: impl StringRange) -> RangeMut<'_, V> {
        let way = SlotSteps::of(self, &range);
        RangeMut::of(self, way)
    }

    /// How many bytes the longest key had that was put in since the map was last empty, also where it has gone: no key
    /// has more.
    ///
    /// ```
    /// let map = sellumaq::JudySl::from([("a", 10), ("abc", 20)]);
    /// assert_eq!(map.longest_key_len(), 3);
    /// ```
    #[must_use]
    pub fn longest_key_len(&self) -> usize {
        let handle = self.handle;
        // SAFETY: the handle is this map's, lent for this call alone, which only reads.
        unsafe { sys::sellumaq_judysl_longest(&handle) }
    }

    /// How many keys an upper end lets through.
    fn count_up_to(&self, end: &Edge) -> usize {
        let (handle, from) = (self.handle, b"");
        let to = match end.string() {
            Some(to) => to,
            None => return self.len(),
        };
        // SAFETY: the handle is this map's, lent for this call alone, which only reads; both strings are slices'.
        let count =
            unsafe { sys::sellumaq_judysl_count(&handle, from.as_ptr(), 0, to.as_ptr(), to.len()) };
        count as usize - usize::from(!end.is_included() && self.contains_key(to))
    }

    /// How many keys lie in a range, whose ends may be any strings.
    ///
    /// ```
    /// let map = sellumaq::JudySl::from([("a", 10), ("b", 20), ("c", 30)]);
    /// assert_eq!((map.count("b"..), map.count("a".."b"), map.count("c".."a")), (2, 1, 0));
    /// ```
    #[must_use]
    pub fn count(&self, range: impl StringRange) -> usize {
        self.count_within(&range)
    }

    fn count_within(&self, range: &impl StringRange) -> usize {
        let (from, to) = range.bounds();
        let (before, end) = (Edge::before(from), Edge::upper(to));
        self.count_up_to(&end)
            .saturating_sub(self.count_up_to(&before))
    }

    /// How many keys there are below a string.
    ///
    /// ```
    /// let map = sellumaq::JudySl::from([("a", 10), ("b", 20)]);
    /// assert_eq!((map.rank("b"), map.rank("bb")), (1, 2));
    /// ```
    #[must_use]
    pub fn rank(&self, string: impl AsRef<[u8]>) -> usize {
        self.count_up_to(&Edge::upper(Bound::Excluded(string.as_ref())))
    }

    /// The pair of the n-th key in ascending order, counted from 0.
    ///
    /// ```
    /// let map = sellumaq::JudySl::from([("a", 10), ("b", 20)]);
    /// assert_eq!((map.nth(1), map.nth(2)), (Some((b"b".to_vec(), 20)), None));
    /// ```
    #[must_use]
    pub fn nth(&self, n: usize) -> Option<(Vec<u8>, V)> {
        let place = (n as u64).checked_add(1)?;
        // SAFETY: the handle is this map's, lent for this call alone, which only reads.
        unsafe { search::nth(self.handle, place) }.map(Self::item)
    }

    /// Takes out each key that isn't to be kept, by ascending key; `keep` may change the values. Where it panics, that
    /// key and those that it didn't see stay as they were.
    ///
    /// ```
    /// let mut map = sellumaq::JudySl::from([("a", 10), ("b", 20)]);
    /// map.retain(|key, _| key > &b"a"[..]);
    /// assert_eq!((map.len(), map["b"]), (1, 20));
    /// ```
    pub fn retain(&mut self, mut keep: impl FnMut(&[u8], &mut V) -> bool) {
        let extracted = self.extract_if(.., |key, value| !keep(key, value));
        extracted.for_each(drop);
    }

    /// Takes those keys of a range out that are chosen, one at each step of the iterator, by ascending key; `chosen`
    /// may change the values. Where the iterator is dropped, the others stay.
    ///
    /// ```
    /// let mut map = sellumaq::JudySl::from([("a", 10), ("b", 20), ("c", 30)]);
    /// assert!(map.extract_if("b".., |_, value| *value > 20).eq([(b"c".to_vec(), 30)]));
    /// assert_eq!(map.len(), 2);
    /// ```
    pub fn extract_if<F: FnMut(&[u8], &mut V) -> bool>(
        &mut self,
        range: impl StringRange,
        chosen: F,
    ) -> ExtractIf<'_, V, F> {
        ExtractIf {
            way: Way::of(&range),
            map: self,
            chosen,
        }
    }

    /// Takes all keys of a range out, and answers how many they were. Where a key of more than 1,024 bytes was put in
    /// since the map was last empty it needs memory, and ends the program where there is none.
    ///
    /// ```
    /// let mut map = sellumaq::JudySl::from([("a", 10), ("b", 20), ("c", 30)]);
    /// assert_eq!((map.remove_range("aa".."c"), map.len()), (1, 2));
    /// ```
    pub fn remove_range(&mut self, range: impl StringRange) -> usize {
        let ends = (
            Steps::of(&range).next(self),
            Steps::of(&range).next_back(self),
        );
        if let (Some((from, _)), Some((to, _))) = ends {
            let (handle, first, last) = (&mut self.handle, from.as_ptr(), to.as_ptr());
            // SAFETY: the handle is this map's, lent for this call alone; both keys are this function's.
            let keys = unsafe {
                sys::sellumaq_judysl_remove_range(handle, first, from.len(), last, to.len())
            };
            return Self::removed(keys);
        }
        0
    }

    // How many keys a call of C took out, which answers the greatest number where it was refused memory.
    fn removed(keys: u64) -> usize {
        if keys == u64::MAX {
            no_room(NoMemory)
        } else {
            keys as usize
        }
    }

    /// Takes all keys out that begin with some bytes, and answers how many they were. It needs memory as
    /// [`remove_range`](Self::remove_range) does.
    ///
    /// ```
    /// let mut map = sellumaq::JudySl::from([("a", 10), ("ab", 20), ("b", 30)]);
    /// assert_eq!((map.remove_prefix("a"), map.len()), (2, 1));
    /// ```
    pub fn remove_prefix(&mut self, prefix: impl AsRef<[u8]>) -> usize {
        let (handle, prefix) = (&mut self.handle, prefix.as_ref());
        // SAFETY: the handle is this map's, lent for this call alone; the bytes are a slice's.
        let keys =
            unsafe { sys::sellumaq_judysl_remove_prefix(handle, prefix.as_ptr(), prefix.len()) };
        Self::removed(keys)
    }

    /// Gives back memory that deletes left free. Where a quarter as many keys went as are left, a copy takes the map's
    /// place, if there is memory for it; else keys move together within the map's pages.
    ///
    /// ```
    /// let mut map: sellumaq::JudySl = (0..10_000).map(|n| (format!("key {n:05}"), n)).collect();
    /// map.retain(|_, n| *n % 100 == 0);
    /// map.shrink_to_fit();
    /// assert_eq!((map.len(), map["key 00300"]), (100, 300));
    /// ```
    pub fn shrink_to_fit(&mut self) {
        // SAFETY: the handle is this map's, lent for this call alone.
        unsafe { sys::sellumaq_judysl_shrink(&mut self.handle) };
    }

    /// Moves all that another holds into this one. A key of both has the other's value then.
    ///
    /// ```
    /// let mut map = sellumaq::JudySl::from([("a", 10), ("b", 20)]);
    /// map.append(&mut [("b", 21), ("c", 30)].into());
    /// assert!(map.values().eq([10, 21, 30]));
    /// ```
    pub fn append(&mut self, other: &mut Self) {
        let mut more = take(other);
        if more.len() > self.len() {
            swap(self, &mut more);
            more.walk(|key, value| {
                if let Some(others) = self.insert(key, value) {
                    self.insert(key, others);
                }
            });
        } else {
            more.walk(|key, value| {
                self.insert(key, value);
            });
        }
    }

    // Hands each pair on, by ascending key.
    fn walk(&self, mut act: impl FnMut(&[u8], V)) {
        let mut entries = self.iter();
        while let Some((key, value)) = entries.next_entry() {
            act(key, value);
        }
    }

    /// A map of what it holds in a range of keys.
    ///
    /// ```
    /// let map = sellumaq::JudySl::from([("a", 10), ("b", 20)]);
    /// assert!(map.copy_range("b"..).iter().eq(map.range("b"..)));
    /// ```
    #[must_use]
    pub fn copy_range(&self, range: impl StringRange) -> Self {
        self.range(range).at_once()
    }

    /// Takes out all from a string on, and answers it as a map.
    ///
    /// ```
    /// let mut map = sellumaq::JudySl::from([("a", 10), ("b", 20)]);
    /// assert_eq!(map.split_off("b"), [("b", 20)].into());
    /// assert_eq!(map.len(), 1);
    /// ```
    pub fn split_off(&mut self, key: impl AsRef<[u8]>) -> Self {
        let range = (Bound::Included(key.as_ref()), Bound::Unbounded);
        let upper = self.copy_range(range);
        self.remove_range(range);
        upper
    }
}

/// The pairs that [`JudySl::extract_if`] takes out.
///
/// ```
/// let mut map = sellumaq::JudySl::from([("a", 10), ("b", 20)]);
/// assert_eq!(map.extract_if(.., |key, _| key > &b"a"[..]).next(), Some((b"b".to_vec(), 20)));
/// ```
#[must_use = "iterators are lazy and do nothing unless consumed"]
pub struct ExtractIf<'a, V: Value, F> {
    map: &'a mut JudySl<V>,
    way: Way,
    chosen: F,
}

impl<V: Value, F: FnMut(&[u8], &mut V) -> bool> Iterator for ExtractIf<'_, V, F> {
    type Item = (Vec<u8>, V);

    fn next(&mut self) -> Option<(Vec<u8>, V)> {
        // what was brought beyond a key is there still when the key was taken out
        while let Some((key, bits)) = self.way.next_entry(self.map) {
            let mut value = V::of_bits(bits);
            if (self.chosen)(key, &mut value) {
                self.map.delete(key);
                return Some((key.to_vec(), value));
            }
            if value.bits() != bits {
                self.map.insert(key, value);
            }
        }
        None
    }
}

impl<V: Value, F: FnMut(&[u8], &mut V) -> bool> FusedIterator for ExtractIf<'_, V, F> {}

impl<V: Value> Range<'_, V> {
    /// The next pair, its key lent until the next call. No memory is asked for each key, as it is for those that `next`
    /// gives away.
    ///
    /// ```
    /// let map = sellumaq::JudySl::from([("a", 10)]);
    /// assert_eq!(map.range("a"..).next_entry(), Some((&b"a"[..], 10)));
    /// ```
    pub fn next_entry(&mut self) -> Option<(&[u8], V)> {
        let (key, value) = self.way.next_entry(self.array)?;
        Some((key, V::of_bits(value)))
    }

    /// The same from the upper end.
    ///
    /// ```
    /// let map = sellumaq::JudySl::from([("a", 10)]);
    /// assert_eq!(map.range("a"..).next_back_entry(), Some((&b"a"[..], 10)));
    /// ```
    pub fn next_back_entry(&mut self) -> Option<(&[u8], V)> {
        let (key, value) = self.way.next_back_entry(self.array)?;
        Some((key, V::of_bits(value)))
    }
}

impl<V: Value> Iter<'_, V> {
    /// The next pair, its key lent until the next call. No memory is asked for each key, as it is for those that `next`
    /// gives away.
    ///
    /// ```
    /// let map = sellumaq::JudySl::from([("a", 10)]);
    /// assert_eq!(map.iter().next_entry(), Some((&b"a"[..], 10)));
    /// ```
    pub fn next_entry(&mut self) -> Option<(&[u8], V)> {
        self.left = self.left.checked_sub(1)?;
        self.range.next_entry()
    }

    /// The same from the upper end.
    ///
    /// ```
    /// let map = sellumaq::JudySl::from([("a", 10)]);
    /// assert_eq!(map.iter().next_back_entry(), Some((&b"a"[..], 10)));
    /// ```
    pub fn next_back_entry(&mut self) -> Option<(&[u8], V)> {
        self.left = self.left.checked_sub(1)?;
        self.range.next_back_entry()
    }
}

impl<V: Value> PartialEq for JudySl<V> {
    fn eq(&self, other: &Self) -> bool {
        self.len() == other.len() && self.cmp(other) == Ordering::Equal
    }
}

impl<V: Value> Eq for JudySl<V> {}

impl<V: Value> PartialOrd for JudySl<V> {
    fn partial_cmp(&self, other: &Self) -> Option<Ordering> {
        Some(self.cmp(other))
    }
}

impl<V: Value> Ord for JudySl<V> {
    fn cmp(&self, other: &Self) -> Ordering {
        let (mut mine, mut others) = (self.iter(), other.iter());
        loop {
            match (mine.next_entry(), others.next_entry()) {
                (None, None) => return Ordering::Equal,
                (one, another) if one == another => {}
                (one, another) => return one.cmp(&another),
            }
        }
    }
}

impl<V: Value> Hash for JudySl<V> {
    fn hash<H: Hasher>(&self, to: &mut H) {
        to.write_usize(self.len());
        let mut entries = self.iter();
        while let Some(pair) = entries.next_entry() {
            pair.hash(to);
        }
    }
}

/// Shows the keys as text, bytes that are no ASCII text as `\x` and two digits.
impl<V: Value> fmt::Debug for JudySl<V> {
    fn fmt(&self, to: &mut fmt::Formatter<'_>) -> fmt::Result {
        let (mut shown, mut entries) = (to.debug_map(), self.iter());
        while let Some((key, value)) = entries.next_entry() {
            shown.entry(&format_args!("\"{}\"", key.escape_ascii()), &value);
        }
        shown.finish()
    }
}
