//! Keys and values of other types than words: values at the edges of each type, and keys beside std's sets and maps.
use sellumaq::{Judy1, JudyHs, JudyL, JudySl, Value, ZeroValue};
use std::collections::{BTreeMap, BTreeSet};
use std::fmt::Debug;
use std::mem::replace;
use std::num::*;
use std::ops::Bound::{Excluded, Included, Unbounded};

/// The steps of a map that the three kinds name alike, beside those of a std map of the same keys: each value is put
/// in, read, changed in place to each other one, and taken out.
macro_rules! holds {
    ($map:ty, $key:expr, $edges:expr) => {
        let (mut map, edges) = (<$map>::empty(), $edges);
        for (n, &value) in edges.iter().enumerate() {
            let key = $key(n);
            assert_eq!(map.try_insert(key.clone(), value), Ok(None));
            for &other in edges {
                assert_eq!(map.insert(key.clone(), other), Some(value));
                assert_eq!((map.get(&key), &map[&key]), (Some(other), &other));
                assert_eq!(replace(map.get_mut(&key).unwrap(), value), other);
                assert_eq!(map.get(&key), Some(value));
                *map.entry(key.clone()).or_insert(value) = other;
                map.entry(key.clone()).and_modify(|it| {
                    assert_eq!(replace(it, value), other);
                });
            }
            assert_eq!(map.remove(&key), Some(value));
            assert_eq!(*map.entry(key.clone()).or_insert(value), value);
            assert_eq!(map.entry(key.clone()).insert_entry(value).remove(), value);
            assert_eq!(map.entry(key).insert_entry(value).get(), &value);
        }
        assert!(map.values().eq(edges.iter().copied()));
        assert!(map.values().rev().eq(edges.iter().rev().copied()));
        let reversed = edges.iter().rev().copied();
        map.values_mut()
            .zip(reversed.clone())
            .for_each(|(it, value)| *it = value);
        assert!(map.clone() == map && map.iter().map(|it| it.1).eq(reversed.clone()));
        let mut kept = map.clone();
        kept.retain(|_, value| *value != edges[0]);
        assert!(kept
            .into_values()
            .eq(reversed.clone().filter(|it| *it != edges[0])));
        assert!(map.into_values().eq(reversed));
    };
}

fn values<V: Value>(edges: &[V]) {
    let pairs = || (0..).zip(edges.iter().copied());
    let (map, plain): (JudyL<V>, BTreeMap<u64, V>) = (pairs().collect(), pairs().collect());
    assert_eq!(format!("{map:?}"), format!("{plain:?}"));
    assert_eq!(JudyL::from_sorted(pairs()), Ok(map.clone()));
    let (keys, mut many) = ([0, 1, 2, 99], [Some(edges[0]); 4]);
    map.get_many(&keys, &mut many);
    assert_eq!(many, keys.map(|key| plain.get(&key).copied()));
    assert_eq!(map.first_key_value(), Some((0, edges[0])));
    let mut other = map.clone();
    other.insert(0, edges[1]);
    let mut plain_other = plain.clone();
    plain_other.insert(0, edges[1]);
    assert_eq!(map.cmp(&other), plain.cmp(&plain_other));
    holds!(JudyL<V>, |n: usize| n as u64, edges);
    holds!(JudySl<V>, |n: usize| format!("key {n}"), edges);
    holds!(JudyHs<V>, |n: usize| vec![0; n], edges);
}

fn zero_values<V: ZeroValue>(edges: &[V]) {
    values(edges);
    let (mut map, mut strings, mut bytes) = (
        JudyL::<V>::empty(),
        JudySl::<V>::empty(),
        JudyHs::<V>::empty(),
    );
    for &value in edges {
        let slots = [
            map.slot(7).unwrap(),
            strings.slot("a").unwrap(),
            bytes.slot("a").unwrap(),
        ];
        for slot in slots {
            assert_eq!(replace(slot, value), V::default());
        }
        assert_eq!(
            (map.remove(7), strings.remove("a"), bytes.remove("a")),
            (Some(value), Some(value), Some(value))
        );
        assert_eq!(*map.entry(8).or_default(), V::default());
        map.clear();
    }
}

macro_rules! integers {
    ($($test:ident: $integer:ident, $non_zero:ident;)*) => { $(
        #[test]
        fn $test() {
            let edges = [0, 1, 2, $integer::MIN, $integer::MIN + 1, $integer::MAX, $integer::MAX - 1, $integer::MAX / 3];
            zero_values::<$integer>(&edges);
            zero_values::<Option<$non_zero>>(&edges.map($non_zero::new));
            let others: Vec<_> = edges.into_iter().filter_map($non_zero::new).collect();
            values::<$non_zero>(&others);
        }
    )* };
}

integers! {
    values_of_u8: u8, NonZeroU8;
    values_of_u16: u16, NonZeroU16;
    values_of_u32: u32, NonZeroU32;
    values_of_u64: u64, NonZeroU64;
    values_of_usize: usize, NonZeroUsize;
    values_of_i8: i8, NonZeroI8;
    values_of_i16: i16, NonZeroI16;
    values_of_i32: i32, NonZeroI32;
    values_of_i64: i64, NonZeroI64;
    values_of_isize: isize, NonZeroIsize;
}

#[test]
fn values_that_are_no_numbers() {
    zero_values(&[false, true]);
    zero_values(&['\0', 'a', '\u{d7ff}', '\u{e000}', char::MAX]);
}

/// Words that look random.
struct Words(u64);

impl Words {
    fn any(&mut self) -> u64 {
        self.0 ^= self.0 << 13;
        self.0 ^= self.0 >> 7;
        self.0 ^= self.0 << 17;
        self.0
    }

    fn below(&mut self, end: usize) -> usize {
        self.any() as usize % end
    }
}

fn pair<K: Copy, V: Copy>(it: (&K, &V)) -> (K, V) {
    (*it.0, *it.1)
}

fn same<T: PartialEq + Debug>(
    one: impl IntoIterator<Item = T>,
    other: impl IntoIterator<Item = T>,
) {
    assert_eq!(
        one.into_iter().collect::<Vec<_>>(),
        other.into_iter().collect::<Vec<_>>()
    );
}

/// Random changes of a set and of a map of keys of a type, beside std's, and what both tell after each. Keys lie at
/// both ends of the type, about zero, and anywhere.
macro_rules! keys {
    ($($test:ident: $key:ident;)*) => { $(
        #[test]
        fn $test() {
            let mut words = Words(9);
            let (mut set, mut map) = (Judy1::<$key>::empty(), JudyL::<i16, $key>::empty());
            let (mut plain, mut plain_map) = (BTreeSet::<$key>::new(), BTreeMap::<$key, i16>::new());
            let key = |words: &mut Words| {
                let near = words.any() as $key % 20;
                match words.below(4) {
                    0 => $key::MIN.wrapping_add(near),
                    1 => $key::MAX.wrapping_sub(near),
                    2 => near,
                    _ => words.any() as $key,
                }
            };
            for turn in 0..1500 {
                let (at, value) = (key(&mut words), words.any() as i16);
                if words.below(3) > 0 {
                    assert_eq!((set.insert(at), map.insert(at, value)), (plain.insert(at), plain_map.insert(at, value)));
                } else {
                    assert_eq!((set.remove(at), map.remove(&at)), (plain.remove(&at), plain_map.remove(&at)));
                }
                let (one, other) = (key(&mut words), key(&mut words));
                let (from, to) = (one.min(other), one.max(other));
                assert_eq!((set.contains(from), map.get(to)), (plain.contains(&from), plain_map.get(&to).copied()));
                assert_eq!((set.first(), set.last()), (plain.iter().next().copied(), plain.iter().next_back().copied()));
                assert_eq!(set.at_or_after(from), plain.range(from..).next().copied());
                assert_eq!(map.at_or_before(to), plain_map.range(..=to).next_back().map(pair));
                assert_eq!((set.count(from..to), map.count(from..=to)), (plain.range(from..to).count(), plain.range(from..=to).count()));
                assert_eq!((set.rank(from), map.rank(to)), (plain.range(..from).count(), plain.range(..to).count()));
                assert_eq!(map.nth(turn % 90), plain_map.iter().nth(turn % 90).map(pair));
                assert_eq!(set.absent_at_or_after(from), (from..=$key::MAX).find(|it| !plain.contains(it)));
                assert_eq!(map.absent_at_or_before(to), ($key::MIN..=to).rev().find(|it| !plain.contains(it)));
                if turn % 50 == 0 {
                    same(&set, plain.iter().copied());
                    same(map.iter().rev(), plain_map.iter().rev().map(pair));
                    for range in [(Included(from), Excluded(to)), (Excluded(from), Unbounded), (Unbounded, Included(to))] {
                        if from < to {
                            same(set.range(range), plain.range(range).copied());
                            same(map.range_mut(range).map(|(key, value)| (key, *value)), plain_map.range(range).map(pair));
                        }
                    }
                    assert_eq!(set.range((Included(to), Excluded(from))).next(), None);
                    let looked_up: Vec<$key> = (0..130).map(|_| key(&mut words)).collect();
                    let (mut there, mut found) = ([false; 130], [None; 130]);
                    set.contains_many(&looked_up, &mut there);
                    map.get_many(&looked_up, &mut found);
                    same(there, looked_up.iter().map(|key| plain.contains(key)));
                    same(found, looked_up.iter().map(|key| plain_map.get(key).copied()));
                    let (mut lower, mut plain_lower) = (map.clone(), plain_map.clone());
                    same(lower.split_off(from), plain_lower.split_off(&from));
                    same(lower.into_iter().rev(), plain_lower.into_iter().rev());
                    let smaller: Judy1<$key> = plain.range(..from).copied().collect();
                    same(&(&set - &smaller), plain.range(from..).copied());
                    same(set.intersection(&smaller), plain.range(..from).copied());
                }
            }
            same(Judy1::from_sorted(plain.iter().copied()).unwrap(), plain.iter().copied());
            let first = plain_map.iter().next().map(pair);
            assert_eq!(map.pop_first(), first);
            plain_map.remove(&first.unwrap().0);
            let keep = |key: &$key, value: &mut i16| {
                *value = value.wrapping_neg();
                key % 2 == 0
            };
            map.retain(keep);
            plain_map.retain(keep);
            same(map, plain_map);
        }
    )* };
}

keys! {
    keys_of_u8: u8;
    keys_of_u16: u16;
    keys_of_u32: u32;
    keys_of_u64: u64;
    keys_of_usize: usize;
    keys_of_i8: i8;
    keys_of_i16: i16;
    keys_of_i32: i32;
    keys_of_i64: i64;
    keys_of_isize: isize;
}

/// A set of all keys of a type: no key is absent, though words behind the greatest one are.
#[test]
fn sets_of_all_keys() {
    let (all, unsigned): (Judy1<i8>, Judy1<u8>) = ((-128..=127).collect(), (0..=255).collect());
    assert_eq!((all.len(), unsigned.count(..)), (256, 256));
    assert_eq!(
        (all.absent_at_or_after(-128), all.absent_at_or_before(127)),
        (None, None)
    );
    assert_eq!(
        (
            unsigned.absent_at_or_after(9),
            unsigned.absent_at_or_before(9)
        ),
        (None, None)
    );
    assert!(all.iter().eq(-128..=127) && all.iter().rev().eq((-128..=127).rev()));
    assert_eq!(
        (all.rank(0), all.nth(0), all.nth(255)),
        (128, Some(-128), Some(127))
    );
    assert_eq!(all.range((Excluded(127), Unbounded)).next(), None);
    assert_eq!(
        (all.count(..-128), all.count((Included(5), Excluded(-5)))),
        (0, 0)
    );
}

#[test]
fn arrays_of_words_need_no_types() {
    let (mut set, mut map) = (Judy1::new(), JudyL::new());
    assert!(set.insert(0x9e37_79b9_7f4a_7c15) && map.put(0x9e37_79b9_7f4a_7c15, 0xffff_ffff_ffff));
    assert_eq!(
        JudyL::from([(1 << 40, 1 << 50)])
            .remove(1 << 40)
            .unwrap()
            .trailing_zeros(),
        50
    );
    fn word_map(_: &JudyL, _: &JudySl, _: &JudyHs, _: &Judy1) {}
    word_map(&map, &JudySl::new(), &JudyHs::new(), &set);
}
