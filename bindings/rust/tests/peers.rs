//! The same steps on an array and on std's: what std's documentation shows of `BTreeSet` and `BTreeMap`, written anew.
//! What differs is listed in README.md.
// Both forms of a key are tried, by itself and lent, and each form of a loop.
#![allow(clippy::needless_borrows_for_generic_args, clippy::for_kv_map)]
use sellumaq::{judyl, judysl, Judy1, JudyHs, JudyL, JudySl};
use std::collections::hash_map::DefaultHasher;
use std::collections::{BTreeMap, BTreeSet, HashMap};
use std::hash::{Hash, Hasher};

fn hashed(it: &impl Hash) -> u64 {
    let mut hasher = DefaultHasher::new();
    it.hash(&mut hasher);
    hasher.finish()
}

/// Sets without a key, with keys at both ends, side by side, and far apart.
fn sets() -> Vec<BTreeSet<u64>> {
    vec![
        BTreeSet::new(),
        BTreeSet::from([0]),
        BTreeSet::from([u64::MAX]),
        BTreeSet::from([0, 1, 2, u64::MAX - 1, u64::MAX]),
        (0..3000).collect(),
        (100..5000).filter(|n| n % 97 != 0).collect(),
        (0..400)
            .map(|n: u64| n.wrapping_mul(0x9e37_79b9_7f4a_7c15))
            .collect(),
    ]
}

fn set_of(keys: &BTreeSet<u64>) -> Judy1 {
    keys.iter().copied().collect()
}

fn map_of(pairs: &BTreeMap<u64, u64>) -> JudyL {
    pairs.iter().map(|(key, value)| (*key, *value)).collect()
}

fn maps() -> Vec<BTreeMap<u64, u64>> {
    sets()
        .iter()
        .map(|keys| keys.iter().map(|key| (*key, key ^ 5)).collect())
        .collect()
}

fn name(key: u64) -> Vec<u8> {
    format!("{}{key}", "shared/".repeat(key as usize % 3)).into_bytes()
}

fn named(pairs: &BTreeMap<u64, u64>) -> BTreeMap<Vec<u8>, u64> {
    pairs
        .iter()
        .map(|(key, value)| (name(*key), *value))
        .collect()
}

/// Takes from both ends by turns, and tells each step and how many are said to be left.
fn both_ends<T>(
    mut items: impl DoubleEndedIterator<Item = T> + ExactSizeIterator,
) -> Vec<(Option<T>, usize)> {
    let steps = items.len() + 3;
    (0..steps)
        .map(|turn| {
            let item = if turn % 3 == 2 {
                items.next_back()
            } else {
                items.next()
            };
            (item, items.len())
        })
        .collect()
}

#[test]
fn sets_of_two_sets() {
    for a in &sets() {
        for b in &sets() {
            let (one, other) = (set_of(a), set_of(b));
            assert!(one.union(&other).eq(a.union(b).copied()));
            assert!(one.intersection(&other).eq(a.intersection(b).copied()));
            assert!(one.difference(&other).eq(a.difference(b).copied()));
            assert!(one
                .symmetric_difference(&other)
                .eq(a.symmetric_difference(b).copied()));
            assert_eq!(&one | &other, set_of(&(a | b)));
            assert_eq!(&one & &other, set_of(&(a & b)));
            assert_eq!(&one - &other, set_of(&(a - b)));
            assert_eq!(&one ^ &other, set_of(&(a ^ b)));
            let told = (
                one.is_subset(&other),
                one.is_superset(&other),
                one.is_disjoint(&other),
            );
            assert_eq!(told, (a.is_subset(b), a.is_superset(b), a.is_disjoint(b)));
            let told = [
                one.union_len(&other),
                one.intersection_len(&other),
                one.difference_len(&other),
                one.symmetric_difference_len(&other),
            ];
            let plain = [
                a.union(b).count(),
                a.intersection(b).count(),
                a.difference(b).count(),
                a.symmetric_difference(b).count(),
            ];
            assert_eq!(told, plain);
            assert_eq!((one.cmp(&other), one == other), (a.cmp(b), a == b));
            assert_eq!(one.partial_cmp(&other), a.partial_cmp(b));
        }
    }
}

#[test]
fn sets_by_their_ends() {
    for plain in &sets() {
        let set = set_of(plain);
        assert_eq!(both_ends(set.iter()), both_ends(plain.iter().copied()));
        assert_eq!(
            both_ends(set.clone().into_iter()),
            both_ends(plain.clone().into_iter())
        );
        assert_eq!(hashed(&set), hashed(plain));
        assert_eq!(
            format!("{set:?} {:?}", set.range(1..9)),
            format!("{plain:?} {:?}", plain.range(1..9).collect::<Vec<_>>())
        );
        for at in [0, 1, 50, 1500, 4000, u64::MAX] {
            let (mut lower, mut below) = (set.clone(), plain.clone());
            assert!(lower.split_off(&at).iter().eq(below.split_off(&at)));
            assert!(lower.iter().eq(below.iter().copied()));
            assert!(set.range(at..).rev().eq(plain.range(at..).rev().copied()));
            let (last, nth) = (set.range(..at).last(), set.range(..at).nth(20));
            assert_eq!(
                (last, nth),
                (
                    plain.range(..at).last().copied(),
                    plain.range(..at).nth(20).copied()
                )
            );
            assert_eq!(set.rank(at), plain.range(..at).count());
        }
        let (mut kept, mut plain_kept) = (set.clone(), plain.clone());
        kept.retain(|key| key % 3 == 0);
        plain_kept.retain(|key| key % 3 == 0);
        assert!(kept.iter().eq(plain_kept.iter().copied()));
        let (mut first, mut all) = (set_of(&plain_kept), set.clone());
        all.append(&mut first);
        assert!(first.is_empty() && all == set);
    }
}

#[test]
fn sets_key_by_key() {
    let mut set = Judy1::from([3, 1, 2]);
    assert_eq!(
        (set.pop_first(), set.pop_last(), set.len()),
        (Some(1), Some(3), 1)
    );
    assert_eq!(
        (set.get(2), set.take(2), set.take(2), set.get(&2)),
        (Some(2), Some(2), None, None)
    );
    assert_eq!((set.replace(4), set.replace(4)), (None, Some(4)));
    set.extend(&[9, 4]);
    assert_eq!(
        (set.first(), set.last(), set.iter().min(), set.iter().max()),
        (Some(4), Some(9), Some(4), Some(9))
    );
    assert_eq!(
        Judy1::new().pop_first().or(Judy1::default().pop_last()),
        None
    );
}

/// The same steps on two maps, whose names for them are alike, and which give their keys as `$key`.
macro_rules! like_std {
    ($map:expr, $plain:expr, |$one:ident, $of:ident| $mine:expr) => {{
        let (mut map, mut plain) = ($map, $plain);
        let told = {
            let ($one, $of) = (&mut map, ());
            let _ = $of;
            $mine
        };
        let std = {
            let ($one, $of) = (&mut plain, ());
            let _ = $of;
            $mine
        };
        assert_eq!(told, std);
        assert!(map.into_iter().eq(plain));
    }};
}

#[test]
fn maps_by_the_same_steps() {
    for plain in &maps() {
        let map = map_of(plain);
        for key in [0, 1, 5, 97, 3000, u64::MAX] {
            let both = || (map.clone(), plain.clone());
            let (a, b) = both();
            like_std!(a, b, |it, _at| *it.entry(key).or_insert(7));
            let (a, b) = both();
            like_std!(a, b, |it, _at| *it
                .entry(key)
                .and_modify(|value| *value += 1)
                .or_insert_with(|| 8));
            let (a, b) = both();
            like_std!(a, b, |it, _at| *it
                .entry(key)
                .or_insert_with_key(|key| key / 2));
            let (a, b) = both();
            like_std!(a, b, |it, _at| (
                *it.entry(key).key(),
                *it.entry(key).or_default()
            ));
            let (a, b) = both();
            like_std!(a, b, |it, _at| it.remove_entry(&key));
            let (a, b) = both();
            like_std!(a, b, |it, _at| it
                .range_mut(key..)
                .map(|(_, value)| {
                    *value ^= 1;
                    *value
                })
                .collect::<Vec<_>>());
            let (a, b) = both();
            like_std!(a, b, |it, _at| it
                .split_off(&key)
                .into_iter()
                .collect::<Vec<_>>());
            let (a, b) = both();
            like_std!(a, b, |it, _at| it.retain(|at, value| {
                *value += 1;
                at % 3 == key % 3
            }));
        }
        like_std!(map.clone(), plain.clone(), |it, _at| it
            .values_mut()
            .rev()
            .for_each(|value| *value += 1));
        like_std!(map.clone(), plain.clone(), |it, _at| for (_, value) in it {
            *value += 1;
        });
        like_std!(map.clone(), plain.clone(), |it, _at| it
            .extend([(5, 6), (5, 7)]));
        like_std!(map.clone(), plain.clone(), |it, _at| it
            .append(&mut [(1, 1), (9, 9)].into()));
        assert_eq!(
            both_ends(map.clone().into_iter()),
            both_ends(plain.clone().into_iter())
        );
        assert_eq!(both_ends(map.values()), both_ends(plain.values().copied()));
        assert_eq!(both_ends(map.keys()), both_ends(plain.keys().copied()));
        assert!(map.clone().into_keys().eq(plain.clone().into_keys()));
        assert!(map
            .clone()
            .into_values()
            .rev()
            .eq(plain.clone().into_values().rev()));
        assert_eq!(
            (hashed(&map), format!("{map:?}")),
            (hashed(plain), format!("{plain:?}"))
        );
        assert!(plain
            .iter()
            .all(|(key, value)| map[key] == *value && map[*key] == *value));
        for (other, plain_other) in maps().iter().map(|it| (map_of(it), it.clone())) {
            assert_eq!(
                (map.cmp(&other), map == other),
                (plain.cmp(&plain_other), *plain == plain_other)
            );
        }
    }
}

#[test]
fn maps_of_strings_by_the_same_steps() {
    for plain in maps().iter().map(named) {
        let map: JudySl = plain.iter().map(|(key, value)| (key, *value)).collect();
        for key in [0, 5, 97, 3000].map(name) {
            let both = || (map.clone(), plain.clone());
            let (a, b) = both();
            like_std!(a, b, |it, _at| *it
                .entry(key.clone())
                .and_modify(|value| *value += 1)
                .or_insert(7));
            let (a, b) = both();
            like_std!(a, b, |it, _at| it.remove_entry(&key));
            let (a, b) = both();
            like_std!(a, b, |it, _at| it
                .range_mut(key.clone()..)
                .map(|(_, value)| {
                    *value ^= 1;
                    *value
                })
                .collect::<Vec<_>>());
            let (a, b) = both();
            like_std!(a, b, |it, _at| it
                .split_off(&key)
                .into_iter()
                .collect::<Vec<_>>());
        }
        like_std!(map.clone(), plain.clone(), |it, _at| it.retain(
            |key, value| {
                *value += 1;
                key.len() % 2 == 0
            }
        ));
        like_std!(map.clone(), plain.clone(), |it, _at| it
            .values_mut()
            .rev()
            .for_each(|value| *value += 1));
        like_std!(map.clone(), plain.clone(), |it, _at| it
            .append(&mut [(name(1), 1), (name(9), 9)].into()));
        assert_eq!(
            both_ends(map.iter()),
            both_ends(plain.iter().map(|(key, value)| (key.clone(), *value)))
        );
        assert_eq!(
            both_ends(map.clone().into_iter()),
            both_ends(plain.clone().into_iter())
        );
        assert!(map.clone().into_keys().eq(plain.clone().into_keys()));
        assert_eq!(hashed(&map), hashed(&plain));
        assert!(plain.iter().all(|(key, value)| map[key] == *value));
        for other in maps().iter().map(named) {
            let judy: JudySl = other.iter().map(|(key, value)| (key, *value)).collect();
            assert_eq!(
                (map.cmp(&judy), map == judy),
                (plain.cmp(&other), plain == other)
            );
        }
    }
}

#[test]
fn the_ends_of_maps() {
    let (mut map, mut strings) = (
        JudyL::from([(2, 20), (1, 10), (3, 30)]),
        JudySl::from([("b", 2), ("a", 1), ("c", 3)]),
    );
    assert_eq!(
        (
            map.first_entry().unwrap().insert(11),
            map.last_entry().unwrap().remove_entry()
        ),
        (10, (3, 30))
    );
    assert_eq!(
        (map.pop_last(), map.pop_first(), map.pop_first()),
        (Some((2, 20)), Some((1, 11)), None)
    );
    assert!(map.first_entry().is_none() && map.last_entry().is_none() && map.pop_last().is_none());
    *strings.last_entry().unwrap().get_mut() += 1;
    assert_eq!(strings.first_entry().unwrap().key(), b"a");
    assert_eq!(
        (strings.pop_first(), strings.pop_last()),
        (Some((b"a".to_vec(), 1)), Some((b"c".to_vec(), 4)))
    );
    assert_eq!(
        (strings.get_key_value("b"), strings.get_key_value("a")),
        (Some((b"b".to_vec(), 2)), None)
    );
}

#[test]
fn entries_told_apart() {
    let (mut map, mut strings) = (JudyL::from([(1, 10)]), JudySl::from([("a", 1)]));
    match map.entry(1) {
        judyl::Entry::Occupied(entry) => {
            assert_eq!((*entry.key(), *entry.get(), entry.remove()), (1, 10, 10))
        }
        judyl::Entry::Vacant(_) => panic!("1 is a key"),
    }
    match strings.entry("b") {
        judysl::Entry::Occupied(_) => panic!("b is none"),
        judysl::Entry::Vacant(entry) => {
            assert_eq!(
                (entry.key().to_vec(), entry.into_key()),
                (b"b".to_vec(), "b")
            )
        }
    }
    assert!(map.is_empty() && strings.len() == 1);
    assert_eq!(
        format!("{:?} {:?}", map.entry(5), strings.entry("a")),
        "VacantEntry(5) OccupiedEntry { key: [97], value: 1 }"
    );
}

#[test]
fn a_map_of_byte_strings_as_a_hash_map() {
    let (mut map, mut plain) = (JudyHs::new(), HashMap::new());
    for key in (0..500).map(|n| name(n * 7 % 311)) {
        *map.entry(&key).or_insert(5) += 1;
        *plain.entry(key.clone()).or_insert(5) += 1;
        map.entry(&key)
            .and_modify(|value| *value *= 3)
            .or_insert_with(|| unreachable!());
        plain
            .entry(key)
            .and_modify(|value| *value *= 3)
            .or_insert_with(|| unreachable!());
    }
    assert_eq!(map.len(), plain.len());
    assert!(plain.iter().all(|(key, value)| map[key] == *value));
}

#[test]
#[should_panic = "no entry found for key"]
fn an_absent_key_as_an_index() {
    let _ = JudyL::from([(1, 10)])[2];
}
