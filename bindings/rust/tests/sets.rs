//! Ranges and two arrays beside std's sets and maps: sets without a key, dense ones, runs, random words far apart, some
//! of them together, and all of these in one.
use sellumaq::{Judy1, JudyL, JudySl};
use std::collections::{BTreeMap, BTreeSet};
use std::ops::Bound::{Excluded, Included, Unbounded};
use std::ops::{Bound, RangeBounds};

type Pairs = BTreeMap<u64, u64>;

/// Words that look random.
fn any(n: u64) -> u64 {
    let word = n.wrapping_add(1).wrapping_mul(0x9e37_79b9_7f4a_7c15);
    word ^ word >> 29
}

/// So many keys of each pattern, by a seed: those of two seeds have some together.
fn patterns(seed: u64, count: u64) -> Vec<BTreeSet<u64>> {
    let half = |n: &u64| any(n ^ seed << 40) % 2 == 0;
    let keys = |of: fn(u64) -> u64| (0..2 * count).filter(half).map(of).collect();
    vec![
        keys(|n| n),
        keys(|n| n / 500 * 100_003 + n % 500),
        keys(|n| any(n) >> 38),
        keys(|n| any(n) >> 32),
        keys(any),
        keys(|n| u64::MAX - n % 9),
        keys(|n| any(n / 40) << 40 | any(n) >> 24),
        keys(|n| match n / 9 % 4 {
            0 => n,
            1 => any(n) >> 38,
            2 => any(n / 200) << 16 | any(n) >> 48,
            _ => any(n),
        }),
    ]
}

/// Sets without a key, with keys at both ends, and of each pattern, of few keys and of many.
fn sets(seed: u64) -> Vec<BTreeSet<u64>> {
    let mut sets = vec![
        BTreeSet::new(),
        BTreeSet::from([0]),
        BTreeSet::from([u64::MAX]),
        BTreeSet::from([0, 77, u64::MAX - 1, u64::MAX]),
    ];
    sets.extend(patterns(seed, 40));
    sets.extend(patterns(seed, 400));
    sets
}

fn valued(keys: &BTreeSet<u64>, by: u64) -> Pairs {
    keys.iter().map(|key| (*key, any(key ^ by))).collect()
}

fn pairs_of(map: &Pairs) -> impl Iterator<Item = (u64, u64)> + '_ {
    map.iter().map(|(key, value)| (*key, *value))
}

fn name(key: u64) -> Vec<u8> {
    format!("{}{key:x}", "shared/".repeat(key as usize % 4)).into_bytes()
}

fn named(map: &Pairs) -> BTreeMap<Vec<u8>, u64> {
    pairs_of(map)
        .map(|(key, value)| (name(key), value))
        .collect()
}

/// What is told of the keys of two, whatever kind they are.
fn told<T: Ord>(one: &BTreeSet<T>, other: &BTreeSet<T>) -> ([usize; 4], [bool; 4]) {
    let lens = [
        one.union(other).count(),
        one.intersection(other).count(),
        one.difference(other).count(),
        one.symmetric_difference(other).count(),
    ];
    let relations = [
        one.is_subset(other),
        one.is_superset(other),
        one.is_disjoint(other),
        one == other,
    ];
    (lens, relations)
}

macro_rules! told_of {
    ($one:expr, $other:expr) => {{
        let (one, other) = ($one, $other);
        let lens = [
            one.union_len(other),
            one.intersection_len(other),
            one.difference_len(other),
            one.symmetric_difference_len(other),
        ];
        let relations = [
            one.is_subset(other),
            one.is_superset(other),
            one.is_disjoint(other),
            one.has_same_keys(other),
        ];
        (lens, relations)
    }};
}

/// Checks a sign in each of its forms.
macro_rules! sign {
    ($one:expr, $other:expr, $sign:tt, $assign:tt, $wanted:expr) => {{
        let (one, other, wanted) = ($one, $other, $wanted);
        assert!((one $sign other).into_iter().eq(wanted.clone()));
        assert!((one $sign other.clone()).into_iter().eq(wanted.clone()));
        assert!((one.clone() $sign other).into_iter().eq(wanted.clone()));
        assert!((one.clone() $sign other.clone()).into_iter().eq(wanted.clone()));
        let mut made = one.clone();
        made $assign other;
        assert!(made.len() == wanted.len() && made.iter().eq(wanted.clone()));
        made = one.clone();
        made $assign other.clone();
        assert!(made.into_iter().eq(wanted));
    }};
}

/// Checks all signs over two maps: the first one's values stand in what both have.
macro_rules! signs_of_maps {
    ($one:expr, $other:expr, $plain:expr, $beside:expr) => {{
        let (one, other, a, b) = ($one, $other, $plain, $beside);
        let (mut joined, mut common, mut lacking) = (b.clone(), a.clone(), a.clone());
        joined.extend(a.clone());
        common.retain(|key, _| b.contains_key(key));
        lacking.retain(|key, _| !b.contains_key(key));
        let mut apart = joined.clone();
        apart.retain(|key, _| a.contains_key(key) != b.contains_key(key));
        sign!(one, other, |, |=, joined);
        sign!(one, other, &, &=, common);
        sign!(one, other, -, -=, lacking);
        sign!(one, other, ^, ^=, apart);
    }};
}

#[test]
fn two_sets() {
    for a in &sets(1) {
        for b in &sets(2) {
            let (one, other): (Judy1, Judy1) = (a.iter().collect_words(), b.iter().collect_words());
            assert_eq!(told_of!(&one, &other), told(a, b));
            sign!(&one, &other, |, |=, (a | b));
            sign!(&one, &other, &, &=, (a & b));
            sign!(&one, &other, -, -=, (a - b));
            sign!(&one, &other, ^, ^=, (a ^ b));
            assert!(one.union(&other).eq(a.union(b).copied()));
            assert!(one.intersection(&other).eq(a.intersection(b).copied()));
            assert!(one.difference(&other).eq(a.difference(b).copied()));
            let apart = a.symmetric_difference(b).copied();
            assert!(one.symmetric_difference(&other).eq(apart));
        }
    }
}

/// Words that an iterator lends, put into a set one by one, so that no call that is tried made it.
trait CollectWords {
    fn collect_words(self) -> Judy1;
}

impl<'a, I: Iterator<Item = &'a u64>> CollectWords for I {
    fn collect_words(self) -> Judy1 {
        let mut set = Judy1::new();
        for key in self {
            set.insert(*key);
        }
        set
    }
}

fn map_of(pairs: &Pairs) -> JudyL {
    let mut map = JudyL::new();
    for (key, value) in pairs {
        map.put(*key, *value);
    }
    map
}

#[test]
fn two_maps() {
    for a in &sets(1) {
        for b in &sets(2) {
            let (plain, beside) = (valued(a, 1), valued(b, 2));
            let (one, other) = (map_of(&plain), map_of(&beside));
            assert_eq!(told_of!(&one, &other), told(a, b));
            signs_of_maps!(&one, &other, &plain, &beside);
        }
    }
}

#[test]
fn two_maps_of_strings() {
    for a in &sets(1) {
        for b in &sets(2) {
            let (plain, beside) = (named(&valued(a, 1)), named(&valued(b, 2)));
            let (mut one, mut other) = (JudySl::new(), JudySl::new());
            one.extend(plain.clone());
            other.extend(beside.clone());
            let keys = |map: &BTreeMap<Vec<u8>, u64>| map.keys().cloned().collect();
            assert_eq!(told_of!(&one, &other), told(&keys(&plain), &keys(&beside)));
            signs_of_maps!(&one, &other, &plain, &beside);
        }
    }
}

/// An array with itself, lent twice: no call of C is handed one array twice.
#[test]
fn one_array_twice() {
    for keys in &sets(3) {
        let (set, map) = (keys.iter().collect_words(), map_of(&valued(keys, 1)));
        let mut strings = JudySl::new();
        strings.extend(named(&valued(keys, 1)));
        assert_eq!(told_of!(&set, &set), told(keys, keys));
        assert_eq!(told_of!(&map, &map), told(keys, keys));
        assert_eq!(told_of!(&strings, &strings), told(keys, keys));
        assert!(&set | &set == set && &set & &set == set);
        assert!(&map | &map == map && &map & &map == map);
        assert!(&strings | &strings == strings && &strings & &strings == strings);
        assert!((&set - &set).is_empty() && (&set ^ &set).is_empty());
        assert!((&map - &map).is_empty() && (&map ^ &map).is_empty());
        assert!((&strings - &strings).is_empty() && (&strings ^ &strings).is_empty());
    }
}

/// Ranges of each form by the keys of a set and words beside them; some end before they begin.
fn ranges(keys: &BTreeSet<u64>) -> Vec<(Bound<u64>, Bound<u64>)> {
    let n = keys.len();
    let nth = |at: usize| keys.iter().nth(at).copied().unwrap_or(9);
    let words = [
        0,
        nth(n / 3),
        nth(n / 3).wrapping_add(1),
        nth(n * 3 / 4),
        u64::MAX,
    ];
    let mut ranges = vec![(Unbounded, Unbounded)];
    for from in words {
        ranges.extend([(Unbounded, Included(from)), (Excluded(from), Unbounded)]);
        for to in words {
            ranges.extend([
                (Included(from), Included(to)),
                (Excluded(from), Excluded(to)),
            ]);
            ranges.push((Included(from), Excluded(to)));
        }
    }
    ranges
}

#[test]
fn ranges_of_sets_and_maps() {
    for keys in &sets(4) {
        let (set, pairs) = (keys.iter().collect_words(), valued(keys, 4));
        let map = map_of(&pairs);
        for range in ranges(keys) {
            let (inside, outside): (BTreeSet<u64>, _) =
                keys.iter().copied().partition(|key| range.contains(key));
            let has = |keys: &BTreeSet<u64>, set: &Judy1, map: &JudyL| {
                let pairs = keys.iter().map(|key| (*key, pairs[key]));
                set.iter().eq(keys.iter().copied()) && map.iter().eq(pairs)
            };
            assert!(has(&inside, &set.copy_range(range), &map.copy_range(range)));
            let (mut less, mut lesser) = (set.clone(), map.clone());
            assert_eq!(less.remove_range(range), inside.len());
            assert_eq!(lesser.remove_range(range), inside.len());
            assert!(has(&outside, &less, &lesser));
            let (mut kept, mut kept_map) = (set.clone(), map.clone());
            assert_eq!(kept.retain_range(range), outside.len());
            assert_eq!(kept_map.retain_range(range), outside.len());
            assert!(has(&inside, &kept, &kept_map));
            assert_eq!(set.count(range), inside.len());
        }
    }
}

#[test]
fn keys_chosen_of_ranges() {
    for keys in &sets(5) {
        let pairs = valued(keys, 5);
        for range in ranges(keys) {
            let chosen = |key: &u64| range.contains(key) && any(*key) % 3 == 0;
            let (out, kept): (Vec<u64>, Vec<u64>) = keys.iter().copied().partition(chosen);
            let (mut set, mut map) = (keys.iter().collect_words(), map_of(&pairs));
            let taken = set.extract_if(range, |key| any(*key) % 3 == 0);
            assert!(taken.eq(out.iter().copied()));
            assert!(set.iter().eq(kept.iter().copied()));
            let by_value = |key: &u64, value: &mut u64| {
                *value ^= 1;
                any(*key) % 3 == 0
            };
            let taken = map.extract_if(range, by_value);
            assert!(taken.eq(out.iter().map(|key| (*key, pairs[key] ^ 1))));
            let changed = |key: &u64| (*key, pairs[key] ^ u64::from(range.contains(key)));
            assert!(map.iter().eq(kept.iter().map(changed)));
        }
        let mut set = keys.iter().collect_words();
        assert_eq!(
            set.extract_if(.., |_| true).next(),
            keys.iter().next().copied()
        );
        assert_eq!(set.len(), keys.len().saturating_sub(1));
    }
}

#[test]
fn numbers_of_ranges_put_in_and_flipped() {
    for keys in &sets(6) {
        let first = keys.iter().nth(keys.len() / 2).copied().unwrap_or(3);
        for from in [0, first.saturating_sub(200), first, u64::MAX - 40] {
            for span in [0, 1, 63, 256, 1000] {
                let words = from..=from.saturating_add(span);
                let mut set = keys.iter().collect_words();
                let more = words.clone().filter(|word| !keys.contains(word)).count();
                assert_eq!(set.contains_range(words.clone()), more == 0);
                assert_eq!(set.try_insert_range(words.clone()), Ok(more));
                let all: BTreeSet<u64> = keys.iter().copied().chain(words.clone()).collect();
                assert!(set.iter().eq(all.iter().copied()) && set.contains_range(words.clone()));
                let mut set = keys.iter().collect_words();
                set.flip_range(words.clone());
                let flipped = keys ^ &words.clone().collect();
                assert!(set.iter().eq(flipped.iter().copied()));
                set.flip_range(words);
                assert!(set.iter().eq(keys.iter().copied()));
            }
        }
        // A range that ends before it begins has no numbers.
        let mut set = keys.iter().collect_words();
        set.flip_range((Included(9), Included(8)));
        set.flip_range((Excluded(u64::MAX), Unbounded));
        assert_eq!(set.insert_range((Excluded(9), Excluded(9))), 0);
        assert!(set.contains_range((Included(1), Included(0))));
        assert!(set.iter().eq(keys.iter().copied()));
        // No memory holds all words.
        assert!(set.try_insert_range(..).is_err());
        assert!(set.iter().eq(keys.iter().copied()));
    }
}

/// A range of keys is one of words, also where keys have a sign: negative ones are the lesser words.
#[test]
fn ranges_of_other_integers() {
    let mut all: Judy1<i8> = Judy1::empty();
    assert_eq!((all.insert_range(..), all.len()), (256, 256));
    assert!(all.iter().eq(i8::MIN..=i8::MAX) && all.contains_range(..));
    assert_eq!(all.remove_range(-3..3), 6);
    assert!(!all.contains_range(-4..=-3) && all.contains_range(3..) && all.contains_range(..-3));
    all.flip_range(-100..);
    assert!(all.iter().eq((-128..-100).chain(-3..3)));
    assert_eq!((all.retain_range(-3..), all.copy_range(..0).len()), (28, 3));
    let mut bytes: Judy1<u8> = (250..=255).collect();
    assert_eq!(bytes.insert_range((Excluded(255), Unbounded)), 0);
    bytes.flip_range(253..);
    assert!(bytes.iter().eq(250..253));
    let mut far: JudyL<char, i64> = [(i64::MIN, 'a'), (-1, 'b'), (0, 'c'), (i64::MAX, 'd')]
        .into_iter()
        .collect();
    assert!(far.split_off(0).keys().eq([0, i64::MAX]));
    assert_eq!((far.remove_range(..=i64::MIN), far.len()), (1, 1));
}

#[test]
fn parts_that_are_moved() {
    for a in &sets(7) {
        for b in &sets(8) {
            let (plain, beside) = (valued(a, 7), valued(b, 8));
            let (mut all, mut all_plain) = (map_of(&plain), plain.clone());
            let mut more = map_of(&beside);
            all.append(&mut more);
            all_plain.append(&mut beside.clone());
            assert!(more.is_empty() && all.into_iter().eq(all_plain));
            let (mut set, mut other) = (a.iter().collect_words(), b.iter().collect_words());
            set.append(&mut other);
            assert!(other.is_empty() && set.into_iter().eq(a | b));
            let (mut strings, mut more) = (JudySl::new(), JudySl::new());
            strings.extend(named(&plain));
            more.extend(named(&beside));
            strings.append(&mut more);
            let mut all_plain = named(&plain);
            all_plain.extend(named(&beside));
            assert!(more.is_empty() && strings.into_iter().eq(all_plain));
        }
    }
    for keys in &sets(9) {
        for range in ranges(keys) {
            let at = match range {
                (Included(at), Included(_)) => at,
                _ => continue,
            };
            let (mut pairs, mut plain) = (valued(keys, 9), keys.clone());
            let (mut set, mut map) = (keys.iter().collect_words(), map_of(&pairs));
            assert!(set.split_off(at).into_iter().eq(plain.split_off(&at)));
            assert!(map.split_off(at).into_iter().eq(pairs.split_off(&at)));
            assert!(set.into_iter().eq(plain) && map.into_iter().eq(pairs));
        }
    }
}

#[test]
fn items_in_any_order() {
    for keys in &sets(10) {
        let turned: Vec<u64> = (0..2 * keys.len())
            .map(|n| keys.iter().nth(any(n as u64) as usize % keys.len()))
            .map(|key| *key.unwrap())
            .collect();
        let plain: Pairs = turned.iter().copied().zip(0..).collect();
        let set = Judy1::from_unsorted(turned.iter().copied());
        assert!(set.len() == plain.len() && set.iter().eq(plain.keys().copied()));
        let map = JudyL::from_unsorted(turned.iter().copied().zip(0..));
        assert!(map.len() == plain.len() && map.iter().eq(pairs_of(&plain)));
        // What is collected and put in is the same, also beside what was there.
        for other in &sets(11) {
            let (mut map, mut all) = (map_of(&valued(other, 1)), valued(other, 1));
            map.extend(turned.iter().copied().zip(0..));
            all.extend(plain.clone());
            assert!(map.into_iter().eq(all));
            let mut set = other.iter().collect_words();
            set.extend(&turned);
            assert!(set.into_iter().eq(other | &plain.keys().copied().collect()));
        }
    }
}

#[test]
fn strings_of_ranges_and_prefixes() {
    for keys in &sets(12) {
        let plain = named(&valued(keys, 12));
        let mut map = JudySl::new();
        map.extend(plain.clone());
        let strings: Vec<&Vec<u8>> = plain.keys().collect();
        let nth = |at: usize| strings.get(at).map_or(b"x".to_vec(), |key| key.to_vec());
        let longer = [nth(strings.len() / 2), vec![0]].concat();
        let ends = [
            vec![],
            nth(strings.len() / 3),
            nth(strings.len() / 2),
            longer,
            vec![255; 2000],
        ];
        for prefix in ends.iter().flat_map(|end| [&end[..end.len() / 2], end]) {
            let (mut less, mut left) = (map.clone(), plain.clone());
            left.retain(|key, _| !key.starts_with(prefix));
            assert_eq!(less.remove_prefix(prefix), plain.len() - left.len());
            assert!(less.into_iter().eq(left));
        }
        for (from, to) in ends
            .iter()
            .flat_map(|from| ends.iter().map(move |to| (from, to)))
        {
            for range in [
                (Included(from), Included(to)),
                (Excluded(from), Excluded(to)),
                (Unbounded, Excluded(to)),
            ] {
                let inside = |key: &Vec<u8>| RangeBounds::<Vec<u8>>::contains(&range, key);
                let (mut less, mut left, mut part) = (map.clone(), plain.clone(), plain.clone());
                left.retain(|key, _| !inside(key));
                part.retain(|key, _| inside(key));
                assert!(map.copy_range(range).into_iter().eq(part.clone()));
                assert_eq!(less.remove_range(range), part.len());
                assert!(less.into_iter().eq(left));
                let mut less = map.clone();
                let taken = less.extract_if(range, |key, _| key.len() % 2 == 0);
                assert!(taken.eq(part.into_iter().filter(|(key, _)| key.len() % 2 == 0)));
            }
            let (mut lower, mut below) = (map.clone(), plain.clone());
            assert!(lower.split_off(from).into_iter().eq(below.split_off(from)));
            assert!(lower.into_iter().eq(below));
        }
    }
}
