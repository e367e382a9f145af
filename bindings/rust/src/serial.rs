//! Serde's two traits by the feature `serde`: a set as a sequence of words, a map as a map, and the keys of strings as
//! bytes.
//!
//! What is read may be anything: no room is made for items that are only promised, a key comes again as of std's maps,
//! with the last value, and bytes that are no key, a full map, and want of memory are errors.
use crate::{Judy1, JudyHs, JudyL, JudySl, Key, Value};
use serde::de::{Deserialize, DeserializeSeed, Deserializer, Error, MapAccess, SeqAccess, Visitor};
use serde::ser::{Serialize, SerializeMap, Serializer};
use std::fmt;
use std::marker::PhantomData;

impl<K: Key + Serialize> Serialize for Judy1<K> {
    fn serialize<S: Serializer>(&self, to: S) -> Result<S::Ok, S::Error> {
        to.collect_seq(self)
    }
}

impl<V: Value + Serialize, K: Key + Serialize> Serialize for JudyL<V, K> {
    fn serialize<S: Serializer>(&self, to: S) -> Result<S::Ok, S::Error> {
        to.collect_map(self)
    }
}

/// Bytes that are told as bytes, and not as a sequence of numbers.
struct Bytes<'a>(&'a [u8]);

impl Serialize for Bytes<'_> {
    fn serialize<S: Serializer>(&self, to: S) -> Result<S::Ok, S::Error> {
        to.serialize_bytes(self.0)
    }
}

impl<V: Value + Serialize> Serialize for JudySl<V> {
    fn serialize<S: Serializer>(&self, to: S) -> Result<S::Ok, S::Error> {
        let (mut told, mut entries) = (to.serialize_map(Some(self.len()))?, self.iter());
        while let Some((key, value)) = entries.next_entry() {
            told.serialize_entry(&Bytes(key), &value)?;
        }
        told.end()
    }
}

impl<V: Value + Serialize> Serialize for JudyHs<V> {
    fn serialize<S: Serializer>(&self, to: S) -> Result<S::Ok, S::Error> {
        let (mut told, mut list) = (to.serialize_map(Some(self.len()))?, self.list());
        while let Some((key, value)) = list.next() {
            told.serialize_entry(&Bytes(key), &V::of_bits(value))?;
        }
        told.end()
    }
}

/// Writes how an `$array` is read by a `$deserialize` of what it is said to be, item by item.
macro_rules! deserialized {
    (
        $array:ident<$($param:ident: $bound:path),+> by $deserialize:ident, $expected:literal;
        $visit:ident($items:ident: $access:ident) $read:block
    ) => {
        impl<'de, $($param: $bound + Deserialize<'de>),+> Deserialize<'de> for $array<$($param),+> {
            fn deserialize<D: Deserializer<'de>>(from: D) -> Result<Self, D::Error> {
                struct Items<$($param),+>(PhantomData<($($param,)+)>);

                impl<'de, $($param: $bound + Deserialize<'de>),+> Visitor<'de> for Items<$($param),+> {
                    type Value = $array<$($param),+>;

                    fn expecting(&self, to: &mut fmt::Formatter<'_>) -> fmt::Result {
                        to.write_str($expected)
                    }

                    fn $visit<A: $access<'de>>(self, mut $items: A) -> Result<Self::Value, A::Error> {
                        $read
                    }
                }

                from.$deserialize(Items(PhantomData))
            }
        }
    };
}

deserialized!(Judy1<K: Key> by deserialize_seq, "a sequence of words"; visit_seq(keys: SeqAccess) {
    let mut set = Judy1::empty();
    while let Some(key) = keys.next_element()? {
        set.try_insert(key).map_err(A::Error::custom)?;
    }
    Ok(set)
});

deserialized!(JudyL<V: Value, K: Key> by deserialize_map, "a map from words to words"; visit_map(pairs: MapAccess) {
    let mut map = JudyL::empty();
    while let Some((key, value)) = pairs.next_entry()? {
        map.try_put(key, value).map_err(A::Error::custom)?;
    }
    Ok(map)
});

deserialized!(JudySl<V: Value> by deserialize_map, "a map from strings to words"; visit_map(pairs: MapAccess) {
    let (mut map, mut key) = (JudySl::empty(), Vec::new());
    while pairs.next_key_seed(StringKey(&mut key))?.is_some() {
        map.try_insert(&key, pairs.next_value()?).map_err(A::Error::custom)?;
    }
    Ok(map)
});

deserialized!(JudyHs<V: Value> by deserialize_map, "a map from byte strings to words"; visit_map(pairs: MapAccess) {
    let (mut map, mut key) = (JudyHs::empty(), Vec::new());
    while pairs.next_key_seed(StringKey(&mut key))?.is_some() {
        map.try_insert(&key, pairs.next_value()?).map_err(A::Error::custom)?;
    }
    Ok(map)
});

/// A key as it is read, in the place of the one before it: bytes, text, or a sequence of numbers.
struct StringKey<'a>(&'a mut Vec<u8>);

impl StringKey<'_> {
    fn go_on<E: Error>(&mut self, bytes: &[u8]) -> Result<(), E> {
        self.0.try_reserve(bytes.len()).map_err(E::custom)?;
        self.0.extend_from_slice(bytes);
        Ok(())
    }
}

impl<'de> DeserializeSeed<'de> for StringKey<'_> {
    type Value = ();

    fn deserialize<D: Deserializer<'de>>(self, from: D) -> Result<(), D::Error> {
        self.0.clear();
        from.deserialize_bytes(self)
    }
}

impl<'de> Visitor<'de> for StringKey<'_> {
    type Value = ();

    fn expecting(&self, to: &mut fmt::Formatter<'_>) -> fmt::Result {
        to.write_str("the bytes of a key")
    }

    fn visit_bytes<E: Error>(mut self, bytes: &[u8]) -> Result<(), E> {
        self.go_on(bytes)
    }

    fn visit_str<E: Error>(mut self, text: &str) -> Result<(), E> {
        self.go_on(text.as_bytes())
    }

    fn visit_seq<A: SeqAccess<'de>>(mut self, mut bytes: A) -> Result<(), A::Error> {
        while let Some(byte) = bytes.next_element()? {
            self.go_on(&[byte])?;
        }
        Ok(())
    }
}
