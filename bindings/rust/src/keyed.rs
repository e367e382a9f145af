//! What maps from strings and from byte strings have alike.
use crate::{no_room, NoMemory};
use sellumaq_sys as sys;
use std::fmt;

/// How many bytes a key of a [`JudySl`](crate::JudySl) or [`JudyHs`](crate::JudyHs) has at most that is turned to bytes
/// or saved to a file. In memory a key may have any number.
///
/// ```
/// assert_eq!(sellumaq::MAX_SAVED_KEY, 1024);
/// ```
pub const MAX_SAVED_KEY: usize = sys::SELLUMAQ_SAVED_KEY_BYTES;

/// Why a key wasn't put into a map; the map is as it was then.
///
/// ```
/// use sellumaq::{InsertError, JudySl};
///
/// assert_eq!(JudySl::new().try_insert("a\0", 1), Err(InsertError::BadKey));
/// ```
#[derive(Clone, Copy, PartialEq, Eq, Debug)]
pub enum InsertError {
    /// The map is a [`JudySl`](crate::JudySl) and the bytes are no key of it: one of them is zero.
    BadKey,
    /// The key is absent, and the map holds 4,294,967,295 keys.
    Full,
    /// The key is absent, and there is no memory for it.
    NoMemory,
}

impl InsertError {
    /// Why an insert answers so.
    pub(crate) fn of(told: u32) -> InsertError {
        match told {
            sys::SELLUMAQ_FULL => InsertError::Full,
            sys::SELLUMAQ_NO_MEMORY => InsertError::NoMemory,
            _ => InsertError::BadKey,
        }
    }

    /// Ends the program as an insert of std would.
    pub(crate) fn end<T>(self) -> T {
        match self {
            InsertError::NoMemory => no_room(NoMemory),
            _ => panic!("{self}"),
        }
    }
}

impl fmt::Display for InsertError {
    fn fmt(&self, to: &mut fmt::Formatter<'_>) -> fmt::Result {
        to.write_str(match self {
            InsertError::BadKey => "not the bytes of a key",
            InsertError::Full => "the map is full",
            InsertError::NoMemory => "no memory for a new key",
        })
    }
}

impl std::error::Error for InsertError {}

/// Writes the calls of a `$map` with values of the type `V` that need no order of its keys, over the calls of C named.
/// `$sample` is a line of an example that makes `map` with the key `"a"` of the value 10.
macro_rules! keyed_map {
    ($map:ident; $ins:ident, $insert:ident, $get:ident, $slot:ident, $del:ident, $remove:ident; $sample:literal) => {
        // What takes the library's pointers.
        impl<V: Value> $map<V> {
            /// The slot of a key. It may be written to where the map is borrowed to be changed.
            fn find_slot(&self, key: &[u8]) -> Option<NonNull<V>> {
                let (handle, mut slot) = (self.handle, null_mut());
                // SAFETY: the handle is this map's, lent for this call alone, which only reads; the key is a slice's.
                let found = unsafe { sys::$slot(&handle, key.as_ptr(), key.len(), &mut slot) };
                found.then_some(slot.cast()).and_then(NonNull::new)
            }

            /// The slot of a key, which is put in where it is absent. Then the slot is all zeros, which need be no
            /// value.
            fn make_slot(&mut self, key: &[u8]) -> Result<NonNull<V>, InsertError> {
                let mut slot = null_mut();
                // SAFETY: the handle is this map's, lent for this call alone; the key is a slice's.
                match unsafe { sys::$ins(&mut self.handle, key.as_ptr(), key.len(), &mut slot) } {
                    sys::SELLUMAQ_FOUND => NonNull::new(slot.cast()).ok_or(InsertError::NoMemory),
                    told => Err(InsertError::of(told)),
                }
            }

            fn delete(&mut self, key: &[u8]) {
                // SAFETY: the handle is this map's, lent for this call alone; the key is a slice's.
                unsafe { sys::$del(&mut self.handle, key.as_ptr(), key.len()) };
            }
        }

        impl<V: Value> $map<V> {
            /// Gives a key a value, and answers the one it had. It ends the program where there is no memory, as std's
            /// maps do.
            ///
            /// # Panics
            ///
            /// Where the bytes are no key, or the map is full.
            ///
            /// ```
            #[doc = $sample]
            /// assert_eq!((map.insert("a", 11), map.insert("b", 20)), (Some(10), None));
            /// ```
            pub fn insert(&mut self, key: impl AsRef<[u8]>, value: V) -> Option<V> {
                self.try_insert(key, value).unwrap_or_else(InsertError::end)
            }

            /// Gives a key a value, and answers the one it had.
            ///
            /// # Errors
            ///
            /// [`InsertError`](crate::InsertError) tells why the key can't be put in, and the map is as it was. A key
            /// that is there is never refused.
            ///
            /// ```
            #[doc = $sample]
            /// assert_eq!(map.try_insert("b", 20), Ok(None));
            /// ```
            pub fn try_insert(
                &mut self,
                key: impl AsRef<[u8]>,
                value: V,
            ) -> Result<Option<V>, InsertError> {
                let (handle, key, mut had) = (&mut self.handle, key.as_ref(), 0);
                let value = value.bits();
                // SAFETY: the handle is this map's, lent for this call alone; the key is a slice's.
                match unsafe { sys::$insert(handle, key.as_ptr(), key.len(), value, &mut had) } {
                    sys::SELLUMAQ_PRESENT => Ok(Some(V::of_bits(had))),
                    sys::SELLUMAQ_ADDED => Ok(None),
                    told => Err(InsertError::of(told)),
                }
            }

            /// The value of a key, to read and to change; the key is put in with the default value where it is absent.
            /// By this an absent key takes a way down the map less than by [`entry`](Self::entry).
            ///
            /// # Errors
            ///
            /// As those of [`try_insert`](Self::try_insert).
            ///
            /// ```
            #[doc = $sample]
            /// *map.slot("a").unwrap() += 1;
            /// assert_eq!(map["a"], 11);
            /// ```
            pub fn slot(&mut self, key: impl AsRef<[u8]>) -> Result<&mut V, InsertError>
            where
                V: ZeroValue,
            {
                let slot = self.make_slot(key.as_ref())?;
                // SAFETY: a slot lives until the map is changed, which stays borrowed as long as the reference. It
                // holds a value, also where it is all zeros.
                Ok(unsafe { &mut *slot.as_ptr() })
            }

            /// The value of a key.
            ///
            /// ```
            #[doc = $sample]
            /// assert_eq!((map.get("a"), map.get(b"b")), (Some(10), None));
            /// ```
            pub fn get(&self, key: impl AsRef<[u8]>) -> Option<V> {
                let (handle, key, mut value) = (self.handle, key.as_ref(), 0);
                // SAFETY: the handle is this map's, lent for this call alone, which only reads; the key is a slice's.
                let found = unsafe { sys::$get(&handle, key.as_ptr(), key.len(), &mut value) };
                found.then(|| V::of_bits(value))
            }

            /// The value of a key, to change.
            ///
            /// ```
            #[doc = $sample]
            /// *map.get_mut("a").unwrap() += 1;
            /// assert_eq!(map["a"], 11);
            /// ```
            pub fn get_mut(&mut self, key: impl AsRef<[u8]>) -> Option<&mut V> {
                let slot = self.find_slot(key.as_ref())?;
                // SAFETY: a slot lives until the map is changed, which stays borrowed as long as the reference. That of
                // a key that is there holds a value.
                Some(unsafe { &mut *slot.as_ptr() })
            }

            /// Whether a key is there.
            ///
            /// ```
            #[doc = $sample]
            /// assert!(map.contains_key("a") && !map.contains_key("b"));
            /// ```
            pub fn contains_key(&self, key: impl AsRef<[u8]>) -> bool {
                self.get(key).is_some()
            }

            /// Takes a key out, and answers the value it had.
            ///
            /// ```
            #[doc = $sample]
            /// assert_eq!((map.remove("a"), map.remove("a")), (Some(10), None));
            /// ```
            pub fn remove(&mut self, key: impl AsRef<[u8]>) -> Option<V> {
                let (handle, key, mut had) = (&mut self.handle, key.as_ref(), 0);
                // SAFETY: the handle is this map's, lent for this call alone; the key is a slice's.
                let found = unsafe { sys::$remove(handle, key.as_ptr(), key.len(), &mut had) };
                found.then(|| V::of_bits(had))
            }
        }

        /// Where the key is absent it panics, as std's maps do.
        impl<V: Value, K: AsRef<[u8]>> Index<K> for $map<V> {
            type Output = V;

            fn index(&self, key: K) -> &V {
                let slot = self
                    .find_slot(key.as_ref())
                    .expect("no entry found for key");
                // SAFETY: as in `get_mut`.
                unsafe { &*slot.as_ptr() }
            }
        }

        impl<V: Value, K: AsRef<[u8]>> Extend<(K, V)> for $map<V> {
            fn extend<I: IntoIterator<Item = (K, V)>>(&mut self, pairs: I) {
                for (key, value) in pairs {
                    self.insert(key, value);
                }
            }
        }

        impl<'a, V: Value, K: AsRef<[u8]> + ?Sized> Extend<(&'a K, &'a V)> for $map<V> {
            fn extend<I: IntoIterator<Item = (&'a K, &'a V)>>(&mut self, pairs: I) {
                self.extend(pairs.into_iter().map(|(key, value)| (key, *value)));
            }
        }

        impl<V: Value, K: AsRef<[u8]>> FromIterator<(K, V)> for $map<V> {
            fn from_iter<I: IntoIterator<Item = (K, V)>>(pairs: I) -> Self {
                let mut map = Self::empty();
                map.extend(pairs);
                map
            }
        }

        /// A map to other values than `u64` is made of pairs by `from_iter` or `collect`.
        impl<K: AsRef<[u8]>, const N: usize> From<[(K, u64); N]> for $map {
            fn from(pairs: [(K, u64); N]) -> Self {
                pairs.into_iter().collect()
            }
        }
    };
}

pub(crate) use keyed_map;
