//! Maps from byte strings to words, their entries and iterators.
use crate::array::array;
use crate::entry::entries;
use crate::keyed::{keyed_map, InsertError};
use crate::list::List;
use crate::saved::{saved, OfTypes};
use crate::types::{Value, ZeroValue};
use crate::walk::halves;
use crate::NoMemory;
use sellumaq_sys as sys;
use std::fmt;
use std::iter::FusedIterator;
use std::marker::PhantomData;
use std::mem::take;
use std::ops::Index;
use std::ptr::{null_mut, NonNull};

array!(
    /// A map from byte strings to words, or to other values that fit one, in no order. A key has any number of bytes,
    /// of any value.
    ///
    /// Its iterators list all pairs at first, by the lengths of the keys, and those of one length by their bytes. That
    /// takes the time and the memory of a sorted `Vec` of them; where there is none it ends the program, as std's
    /// collections do.
    ///
    /// ```
    /// let mut seen = sellumaq::JudyHs::new();
    /// *seen.entry([0, 255]).or_insert(0) += 1;
    /// assert_eq!(seen.get([0, 255]), Some(1));
    /// assert_eq!(seen.insert("text", 5), None);
    /// assert!(seen.keys().eq([vec![0, 255], b"text".to_vec()]));
    /// ```
    JudyHs<V: Value = u64> over sellumaq_judyhs, sellumaq_judyhs_len, sellumaq_judyhs_bytes, sellumaq_judyhs_free;
    "let array = sellumaq::JudyHs::from([(\"a\", 10), (\"b\", 20), (\"c\", 30)]);"
);

keyed_map!(
    JudyHs; sellumaq_judyhs_ins, sellumaq_judyhs_insert, sellumaq_judyhs_get, sellumaq_judyhs_slot, sellumaq_judyhs_del, sellumaq_judyhs_remove;
    "let mut map = sellumaq::JudyHs::from([(\"a\", 10)]);"
);

entries!(
    JudyHs<V: Value> with [K: AsRef<[u8]>], Entry<K: AsRef<[u8]>, V: Value = u64>;
    judyhs, InsertError, InsertError::end; K, K::as_ref => &[u8];
    "let mut map = sellumaq::JudyHs::from([(\"a\", 10), (\"b\", 20)]);", "\"a\"", "\"c\"", "b\"a\"", "b\"c\""
);

saved!(
    JudyHs<V: Value>; sellumaq_judyhs_dump, sellumaq_judyhs_dump_size, sellumaq_judyhs_load, sellumaq_judyhs_save, sellumaq_judyhs_open;
    "let array = sellumaq::JudyHs::from([(\"a\", 10), (\"b\", 20)]);", "<sellumaq::JudyHs>"
);

impl<V: Value> OfTypes for JudyHs<V> {
    fn is_of_types(&self) -> Result<bool, NoMemory> {
        if V::EACH {
            return Ok(true);
        }
        // SAFETY: the map is borrowed.
        let mut list = unsafe { List::try_of(self.handle, self.len()) }?;
        while let Some((_, bits)) = list.next() {
            if !V::is_held(bits) {
                return Ok(false);
            }
        }
        Ok(true)
    }
}

impl<V: Value> JudyHs<V> {
    pub(crate) fn list(&self) -> List {
        // SAFETY: the map is borrowed.
        unsafe { List::of(self.handle, self.len()) }
    }

    /// The pairs, by the lengths of the keys, and those of one length by their bytes.
    ///
    /// ```
    /// let map = sellumaq::JudyHs::from([("bb", 20), ("c", 30)]);
    /// assert!(map.iter().eq([(b"c".to_vec(), 30), (b"bb".to_vec(), 20)]));
    /// ```
    pub fn iter(&self) -> Iter<'_, V> {
        Iter {
            list: self.list(),
            map: PhantomData,
        }
    }

    /// The pairs, their values to change.
    ///
    /// ```
    /// let mut map = sellumaq::JudyHs::from([("a", 10), ("b", 20)]);
    /// map.iter_mut().for_each(|(_, value)| *value += 1);
    /// assert!(map.values().eq([11, 21]));
    /// ```
    pub fn iter_mut(&mut self) -> IterMut<'_, V> {
        IterMut {
            list: self.list(),
            map: self,
            lent: PhantomData,
        }
    }

    /// The keys.
    ///
    /// ```
    /// let map = sellumaq::JudyHs::from([("a", 10), ("b", 20)]);
    /// assert!(map.keys().eq([b"a".to_vec(), b"b".to_vec()]));
    /// ```
    pub fn keys(&self) -> Keys<'_, V> {
        Keys { pairs: self.iter() }
    }

    /// The values.
    ///
    /// ```
    /// let map = sellumaq::JudyHs::from([("a", 10), ("b", 20)]);
    /// assert_eq!(map.values().sum::<u64>(), 30);
    /// ```
    pub fn values(&self) -> Values<'_, V> {
        Values {
            list: self.list(),
            map: PhantomData,
        }
    }

    /// The values, to change.
    ///
    /// ```
    /// let mut map = sellumaq::JudyHs::from([("a", 10), ("b", 20)]);
    /// map.values_mut().for_each(|value| *value += 1);
    /// assert!(map.values().eq([11, 21]));
    /// ```
    pub fn values_mut(&mut self) -> ValuesMut<'_, V> {
        ValuesMut {
            list: self.list(),
            map: self,
            lent: PhantomData,
        }
    }

    /// The keys; the map goes.
    ///
    /// ```
    /// let map = sellumaq::JudyHs::from([("a", 10), ("b", 20)]);
    /// assert!(map.into_keys().eq([b"a".to_vec(), b"b".to_vec()]));
    /// ```
    pub fn into_keys(self) -> IntoKeys<V> {
        IntoKeys {
            pairs: self.into_iter(),
        }
    }

    /// The values; the map goes.
    ///
    /// ```
    /// let map = sellumaq::JudyHs::from([("a", 10), ("b", 20)]);
    /// assert!(map.into_values().eq([10, 20]));
    /// ```
    pub fn into_values(self) -> IntoValues<V> {
        IntoValues {
            list: self.list(),
            of: PhantomData,
        }
    }

    /// Takes all pairs out.
    ///
    /// ```
    /// let mut map = sellumaq::JudyHs::from([("a", 10), ("b", 20)]);
    /// assert_eq!(map.drain().count(), 2);
    /// assert!(map.is_empty());
    /// ```
    pub fn drain(&mut self) -> IntoIter<V> {
        take(self).into_iter()
    }

    /// A key with its value, where it is there.
    ///
    /// ```
    /// let map = sellumaq::JudyHs::from([("a", 10)]);
    /// assert_eq!(map.get_key_value("a"), Some((b"a".to_vec(), 10)));
    /// ```
    pub fn get_key_value(&self, key: impl AsRef<[u8]>) -> Option<(Vec<u8>, V)> {
        let key = key.as_ref();
        self.get(key).map(|value| (key.to_vec(), value))
    }

    /// Takes a key out, and answers it with its value.
    ///
    /// ```
    /// let mut map = sellumaq::JudyHs::from([("a", 10)]);
    /// assert_eq!(map.remove_entry("a"), Some((b"a".to_vec(), 10)));
    /// ```
    pub fn remove_entry(&mut self, key: impl AsRef<[u8]>) -> Option<(Vec<u8>, V)> {
        let key = key.as_ref();
        self.remove(key).map(|value| (key.to_vec(), value))
    }

    /// Takes out each key that isn't to be kept; `keep` may change the values. Where it panics, that key and those that
    /// it didn't see stay as they were.
    ///
    /// ```
    /// let mut map = sellumaq::JudyHs::from([("a", 10), ("b", 20)]);
    /// map.retain(|key, _| key > &b"a"[..]);
    /// assert_eq!((map.len(), map["b"]), (1, 20));
    /// ```
    pub fn retain(&mut self, mut keep: impl FnMut(&[u8], &mut V) -> bool) {
        self.extract_if(|key, value| !keep(key, value))
            .for_each(drop);
    }

    /// Gives back memory that deletes left free: one walk over the map. A key that shares its hash with another stays
    /// where it is, and where memory is refused so does one of more than 1,024 bytes.
    ///
    /// ```
    /// let mut map: sellumaq::JudyHs = (0..10_000).map(|n| (format!("key {n:05}"), n)).collect();
    /// map.retain(|_, n| *n % 100 == 0);
    /// map.shrink_to_fit();
    /// assert_eq!((map.len(), map["key 00300"]), (100, 300));
    /// ```
    pub fn shrink_to_fit(&mut self) {
        // SAFETY: the handle is this map's, lent for this call alone.
        unsafe { sys::sellumaq_judyhs_shrink(&mut self.handle) };
    }

    /// Takes those keys out that are chosen, one at each step of the iterator; `chosen` may change the values. Where
    /// the iterator is dropped, the others stay.
    ///
    /// ```
    /// let mut map = sellumaq::JudyHs::from([("a", 10), ("b", 20), ("c", 30)]);
    /// assert!(map.extract_if(|_, value| *value > 20).eq([(b"c".to_vec(), 30)]));
    /// assert_eq!(map.len(), 2);
    /// ```
    pub fn extract_if<F: FnMut(&[u8], &mut V) -> bool>(
        &mut self,
        chosen: F,
    ) -> ExtractIf<'_, V, F> {
        ExtractIf {
            list: self.list(),
            map: self,
            chosen,
        }
    }
}

/// The pairs that [`JudyHs::extract_if`] takes out.
///
/// ```
/// let mut map = sellumaq::JudyHs::from([("a", 10), ("b", 20)]);
/// assert_eq!(map.extract_if(|key, _| key > &b"a"[..]).next(), Some((b"b".to_vec(), 20)));
/// ```
#[must_use = "iterators are lazy and do nothing unless consumed"]
pub struct ExtractIf<'a, V: Value, F> {
    map: &'a mut JudyHs<V>,
    list: List,
    chosen: F,
}

impl<V: Value, F: FnMut(&[u8], &mut V) -> bool> Iterator for ExtractIf<'_, V, F> {
    type Item = (Vec<u8>, V);

    fn next(&mut self) -> Option<(Vec<u8>, V)> {
        while let Some((key, bits)) = self.list.next() {
            let mut value = V::of_bits(bits);
            if (self.chosen)(key, &mut value) {
                self.map.delete(key);
                return Some((key.to_vec(), value));
            }
            if value.bits() != bits {
                self.map.insert(key, value);
            }
        }
        None
    }

    fn size_hint(&self) -> (usize, Option<usize>) {
        (0, Some(self.list.left()))
    }
}

impl<V: Value, F: FnMut(&[u8], &mut V) -> bool> FusedIterator for ExtractIf<'_, V, F> {}

/// Writes what an iterator over a list of pairs has, each of which it answers by `$answer`.
macro_rules! pairs {
    ($name:ident<$($life:lifetime,)? V>; $self:ident, $key:ident, $value:ident: $answer:expr => $item:ty) => {
        impl<$($life,)? V: Value> Iterator for $name<$($life,)? V> {
            type Item = $item;

            fn next(&mut $self) -> Option<$item> {
                let ($key, $value) = $self.list.next()?;
                $answer
            }

            fn size_hint(&self) -> (usize, Option<usize>) {
                (self.list.left(), Some(self.list.left()))
            }
        }

        impl<$($life,)? V: Value> DoubleEndedIterator for $name<$($life,)? V> {
            fn next_back(&mut $self) -> Option<$item> {
                let ($key, $value) = $self.list.next_back()?;
                $answer
            }
        }

        impl<$($life,)? V: Value> ExactSizeIterator for $name<$($life,)? V> {}

        impl<$($life,)? V: Value> FusedIterator for $name<$($life,)? V> {}

        impl<$($life,)? V: Value> fmt::Debug for $name<$($life,)? V> {
            fn fmt(&self, to: &mut fmt::Formatter<'_>) -> fmt::Result {
                self.list.fmt(to)
            }
        }
    };
}

/// The pairs of a [`JudyHs`].
///
/// ```
/// let map = sellumaq::JudyHs::from([("a", 10), ("b", 20)]);
/// assert_eq!(map.iter().next(), Some((b"a".to_vec(), 10)));
/// ```
#[derive(Clone)]
#[must_use = "iterators are lazy and do nothing unless consumed"]
pub struct Iter<'a, V: Value = u64> {
    list: List,
    map: PhantomData<&'a JudyHs<V>>,
}

pairs!(Iter<'a, V>; self, key, value: Some((key.to_vec(), V::of_bits(value))) => (Vec<u8>, V));

/// The keys of a [`JudyHs`], each beside its value, to change.
///
/// ```
/// let mut map = sellumaq::JudyHs::from([("a", 10), ("b", 20)]);
/// for (_, value) in &mut map {
///     *value += 1;
/// }
/// assert_eq!(map["b"], 21);
/// ```
#[must_use = "iterators are lazy and do nothing unless consumed"]
pub struct IterMut<'a, V: Value = u64> {
    list: List,
    map: &'a JudyHs<V>,
    lent: PhantomData<&'a mut V>,
}

pairs!(IterMut<'a, V>; self, key, _value: {
    let slot = self.map.find_slot(key)?;
    // SAFETY: the map is borrowed to be changed for as long as the slot is lent, and isn't changed meanwhile, so the
    // slot stays. No key comes twice, so no slot is lent twice. To find the next slot the library decides by keys
    // alone.
    Some((key.to_vec(), unsafe { &mut *slot.as_ptr() }))
} => (Vec<u8>, &'a mut V));

/// The pairs that a [`JudyHs`] held, which the iterator owns.
///
/// ```
/// let map = sellumaq::JudyHs::from([("a", 10), ("b", 20)]);
/// assert_eq!(map.into_iter().next_back(), Some((b"b".to_vec(), 20)));
/// ```
#[derive(Clone)]
pub struct IntoIter<V: Value = u64> {
    list: List,
    of: PhantomData<V>,
}

pairs!(IntoIter<V>; self, key, value: Some((key.to_vec(), V::of_bits(value))) => (Vec<u8>, V));

halves!(
    /// The keys of a map.
    ///
    /// ```
    /// let map = sellumaq::JudyHs::from([("a", 10), ("b", 20)]);
    /// assert_eq!(map.keys().next(), Some(b"a".to_vec()));
    /// ```
    #[derive(Clone)]
    Keys<'a, V: Value = u64> of Iter<'a, V>; 0: Vec<u8>
);
/// The values of a map.
///
/// ```
/// let map = sellumaq::JudyHs::from([("a", 10), ("b", 20)]);
/// assert_eq!(map.values().next(), Some(10));
/// ```
#[derive(Clone)]
#[must_use = "iterators are lazy and do nothing unless consumed"]
pub struct Values<'a, V: Value = u64> {
    list: List,
    map: PhantomData<&'a JudyHs<V>>,
}

pairs!(Values<'a, V>; self, _key, value: Some(V::of_bits(value)) => V);

/// The values of a map, to change.
///
/// ```
/// let mut map = sellumaq::JudyHs::from([("a", 10), ("b", 20)]);
/// *map.values_mut().next().unwrap() += 1;
/// assert_eq!(map["a"], 11);
/// ```
#[must_use = "iterators are lazy and do nothing unless consumed"]
pub struct ValuesMut<'a, V: Value = u64> {
    list: List,
    map: &'a JudyHs<V>,
    lent: PhantomData<&'a mut V>,
}

pairs!(ValuesMut<'a, V>; self, key, _value: {
    let slot = self.map.find_slot(key)?;
    // SAFETY: as in `IterMut`.
    Some(unsafe { &mut *slot.as_ptr() })
} => &'a mut V);

halves!(
    /// The keys of a map, which the iterator owns.
    ///
    /// ```
    /// let map = sellumaq::JudyHs::from([("a", 10), ("b", 20)]);
    /// assert_eq!(map.into_keys().next(), Some(b"a".to_vec()));
    /// ```
    IntoKeys<V: Value = u64> of IntoIter<V>; 0: Vec<u8>
);

/// The values of a map, which the iterator owns.
///
/// ```
/// let map = sellumaq::JudyHs::from([("a", 10), ("b", 20)]);
/// assert_eq!(map.into_values().next(), Some(10));
/// ```
#[derive(Clone)]
#[must_use = "iterators are lazy and do nothing unless consumed"]
pub struct IntoValues<V: Value = u64> {
    list: List,
    of: PhantomData<V>,
}

pairs!(IntoValues<V>; self, _key, value: Some(V::of_bits(value)) => V);

impl<V: Value> IntoIterator for JudyHs<V> {
    type Item = (Vec<u8>, V);
    type IntoIter = IntoIter<V>;

    fn into_iter(self) -> IntoIter<V> {
        IntoIter {
            list: self.list(),
            of: PhantomData,
        }
    }
}

impl<'a, V: Value> IntoIterator for &'a JudyHs<V> {
    type Item = (Vec<u8>, V);
    type IntoIter = Iter<'a, V>;

    fn into_iter(self) -> Iter<'a, V> {
        self.iter()
    }
}

impl<'a, V: Value> IntoIterator for &'a mut JudyHs<V> {
    type Item = (Vec<u8>, &'a mut V);
    type IntoIter = IterMut<'a, V>;

    fn into_iter(self) -> IterMut<'a, V> {
        self.iter_mut()
    }
}

impl<V: Value> Clone for JudyHs<V> {
    fn clone(&self) -> Self {
        let (mut copy, mut list) = (Self::empty(), self.list());
        while let Some((key, value)) = list.next() {
            copy.insert(key, V::of_bits(value));
        }
        copy
    }
}

impl<V: Value> PartialEq for JudyHs<V> {
    fn eq(&self, other: &Self) -> bool {
        let mut list = if self.len() == other.len() {
            self.list()
        } else {
            return false;
        };
        while let Some((key, value)) = list.next() {
            if other.get(key) != Some(V::of_bits(value)) {
                return false;
            }
        }
        true
    }
}

impl<V: Value> Eq for JudyHs<V> {}

impl<V: Value> fmt::Debug for JudyHs<V> {
    fn fmt(&self, to: &mut fmt::Formatter<'_>) -> fmt::Result {
        self.list().fmt(to)
    }
}
