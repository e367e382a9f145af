//! Measures the arrays beside std's sets and maps: `cargo run --release --example beside_std [KEYS ..]`. It prints a
//! line for each figure, as the measuring programs in C do: ARRAY LIBRARY PATTERN KEYS CALL NUMBER, the number being
//! nanoseconds of processor time a key, the least of 15 turns, or of three at a million keys. `by-calls` is a walk by
//! the call of C that each step of an iterator makes, without the iterator.
// One text measures std's types too, which want keys lent; and it may ask for a newer Rust than the crate.
#![allow(
    clippy::needless_borrows_for_generic_args,
    clippy::redundant_closure,
    clippy::incompatible_msrv
)]
use sellumaq::{Judy1, JudyHs, JudyL, JudySl};
use std::collections::{BTreeMap, BTreeSet, HashMap};
use std::ops::Bound;
use std::os::raw::c_long;
use std::ptr::read_volatile;

/// A way to make a key of a number.
type Pattern = (&'static str, fn(u64) -> u64);

const PATTERNS: [Pattern; 3] = [
    ("ascending", |n| n),
    ("runs-of-100", |n| n % 100 + n / 100 * 1_000_003),
    ("random", |n| n.wrapping_mul(0x9e37_79b9_7f4a_7c15)),
];

/// Lets no compiler leave out what makes a value.
fn see<T: Copy>(value: T) {
    // SAFETY: the value is this function's.
    unsafe { read_volatile(&value) };
}

extern "C" {
    fn clock() -> c_long;
}

/// The microseconds of processor time that this program has taken, so that other work on the machine counts little.
fn microseconds() -> f64 {
    // SAFETY: it only reads a clock.
    let now = unsafe { clock() };
    now as f64
}

/// The nanoseconds that an act takes by each of so many keys, which what comes before it isn't counted to.
fn nanoseconds<T>(keys: usize, before: impl Fn() -> T, act: impl Fn(T)) -> f64 {
    let turn = || {
        let made = before();
        let begin = microseconds();
        act(made);
        (microseconds() - begin) * 1e3 / keys as f64
    };
    let turns = if keys < 1_000_000 { 15 } else { 3 };
    (0..turns).map(|_| turn()).fold(f64::INFINITY, f64::min)
}

/// Which keys are measured: their pattern, and how many there are.
type Keys<'a> = (&'a str, usize);

fn tell(array: &str, library: &str, (pattern, count): Keys, call: &str, time: f64) {
    println!("{array} {library} {pattern} {count} {call} {time:.2}");
}

macro_rules! side_by_side {
    ($array:literal, $call:literal, $keys:expr, $ours:expr, $std:expr, |$it:ident| $act:expr) => {
        let ours = nanoseconds($keys.1, $ours, |mut $it| {
            let _ = &mut $it;
            $act;
        });
        tell($array, "sellumaq", $keys, $call, ours);
        let std = nanoseconds($keys.1, $std, |mut $it| {
            let _ = &mut $it;
            $act;
        });
        tell($array, "std", $keys, $call, std);
    };
}

fn measure(pattern: &str, keys: &[u64]) {
    let (set, plain_set): (Judy1, BTreeSet<u64>) = (
        keys.iter().copied().collect(),
        keys.iter().copied().collect(),
    );
    let (map, plain): (JudyL, BTreeMap<u64, u64>) = (
        keys.iter().map(|key| (*key, 1)).collect(),
        keys.iter().map(|key| (*key, 1)).collect(),
    );
    let (shuffled, count) = (|n: usize| keys[n * 7919 % keys.len()], keys.len());
    let told = (pattern, count);
    side_by_side!("judy1", "insert", told, Judy1::new, BTreeSet::new, |it| (0
        ..count)
        .for_each(|n| see(it.insert(shuffled(n)))));
    side_by_side!("judy1", "contains", told, || &set, || &plain_set, |it| (0
        ..count)
        .for_each(|n| see(it.contains(&shuffled(n)))));
    side_by_side!("judy1", "iterate", told, || &set, || &plain_set, |it| it
        .iter()
        .for_each(|key| see(key)));
    side_by_side!(
        "judy1",
        "iterate-back",
        told,
        || &set,
        || &plain_set,
        |it| it.iter().rev().for_each(|key| see(key))
    );
    side_by_side!(
        "judy1",
        "remove",
        told,
        || set.clone(),
        || plain_set.clone(),
        |it| (0..count).for_each(|n| see(it.remove(&shuffled(n))))
    );
    side_by_side!(
        "judy1",
        "pop_first",
        told,
        || set.clone(),
        || plain_set.clone(),
        |it| while it.pop_first().is_some() {}
    );
    side_by_side!("judyl", "insert", told, JudyL::new, BTreeMap::new, |it| (0
        ..count)
        .for_each(|n| see(it.insert(shuffled(n), 1))));
    side_by_side!("judyl", "extend", told, JudyL::new, BTreeMap::new, |it| it
        .extend((0..count).map(|n| (shuffled(n), 1))));
    side_by_side!(
        "judyl",
        "insert-again",
        told,
        || map.clone(),
        || plain.clone(),
        |it| (0..count).for_each(|n| see(it.insert(shuffled(n), 2)))
    );
    side_by_side!("judyl", "get", told, || &map, || &plain, |it| (0..count)
        .for_each(|n| see(it.get(&shuffled(n)))));
    side_by_side!("judyl", "entry", told, JudyL::new, BTreeMap::new, |it| (0
        ..count)
        .for_each(|n| *it.entry(shuffled(n)).or_insert(0) += 1));
    side_by_side!("judyl", "iterate", told, || &map, || &plain, |it| it
        .iter()
        .for_each(|pair| see(pair)));
    side_by_side!(
        "judyl",
        "iter_mut",
        told,
        || map.clone(),
        || plain.clone(),
        |it| it.iter_mut().for_each(|(_, value)| *value += 1)
    );
    side_by_side!(
        "judyl",
        "remove",
        told,
        || map.clone(),
        || plain.clone(),
        |it| (0..count).for_each(|n| see(it.remove(&shuffled(n))))
    );
    let by_calls = nanoseconds(count, || (), |()| walk_by_the_call(&map));
    tell("judyl", "by-calls", told, "iterate", by_calls);
    measure_wholes((told, keys), (&set, &map), (&plain_set, &plain));
}

/// The calls on all keys of an array. Of each three keys two are kept, or of 101 one, and as many come to the others.
fn measure_wholes(
    (told, keys): (Keys, &[u64]),
    (set, map): (&Judy1, &JudyL),
    (plain_set, plain): (&BTreeSet<u64>, &BTreeMap<u64, u64>),
) {
    let others: JudyL = map.iter().map(|(key, value)| (key ^ 1, value)).collect();
    let plain_others: BTreeMap<u64, u64> = others.iter().collect();
    let other_set: Judy1 = others.keys().collect();
    let plain_other_set: BTreeSet<u64> = others.keys().collect();
    side_by_side!("judy1", "clone", told, || set, || plain_set, |it| drop(
        it.clone()
    ));
    side_by_side!(
        "judy1",
        "retain",
        told,
        || set.clone(),
        || plain_set.clone(),
        |it| it.retain(|key| key % 3 != 0)
    );
    side_by_side!("judyl", "clone", told, || map, || plain, |it| drop(
        it.clone()
    ));
    side_by_side!(
        "judyl",
        "retain",
        told,
        || map.clone(),
        || plain.clone(),
        |it| it.retain(|key, _| key % 3 != 0)
    );
    side_by_side!(
        "judyl",
        "append",
        told,
        || (map.clone(), others.clone()),
        || (plain.clone(), plain_others.clone()),
        |it| it.0.append(&mut it.1)
    );
    side_by_side!(
        "judyl",
        "pop_first",
        told,
        || map.clone(),
        || plain.clone(),
        |it| while it.pop_first().is_some() {}
    );
    side_by_side!(
        "judy1",
        "collect",
        told,
        || |keys: &[u64]| keys.iter().copied().collect::<Judy1>(),
        || |keys: &[u64]| keys.iter().copied().collect::<BTreeSet<u64>>(),
        |it| drop(it(keys))
    );
    side_by_side!(
        "judy1",
        "into_iter",
        told,
        || set.clone(),
        || plain_set.clone(),
        |it| it.into_iter().for_each(|item| see(item))
    );
    side_by_side!("judy1", "range", told, || set, || plain_set, |it| keys
        .iter()
        .for_each(|key| it.range(key..).take(5).for_each(|item| see(item))));
    side_by_side!(
        "judy1",
        "retain-few",
        told,
        || set.clone(),
        || plain_set.clone(),
        |it| it.retain(|key| key % 101 == 0)
    );
    side_by_side!(
        "judy1",
        "pop_last",
        told,
        || set.clone(),
        || plain_set.clone(),
        |it| while it.pop_last().is_some() {}
    );
    side_by_side!(
        "judyl",
        "collect",
        told,
        || |keys: &[u64]| keys.iter().map(|key| (*key, 1)).collect::<JudyL>(),
        || |keys: &[u64]| keys
            .iter()
            .map(|key| (*key, 1))
            .collect::<BTreeMap<u64, u64>>(),
        |it| drop(it(keys))
    );
    side_by_side!(
        "judyl",
        "into_iter",
        told,
        || map.clone(),
        || plain.clone(),
        |it| it.into_iter().for_each(|item| see(item))
    );
    side_by_side!("judyl", "range", told, || map, || plain, |it| keys
        .iter()
        .for_each(|key| it.range(key..).take(5).for_each(|item| see(item))));
    side_by_side!(
        "judyl",
        "retain-few",
        told,
        || map.clone(),
        || plain.clone(),
        |it| it.retain(|key, _| key % 101 == 0)
    );
    side_by_side!(
        "judyl",
        "pop_last",
        told,
        || map.clone(),
        || plain.clone(),
        |it| while it.pop_last().is_some() {}
    );
    side_by_side!(
        "judy1",
        "append",
        told,
        || (set.clone(), other_set.clone()),
        || (plain_set.clone(), plain_other_set.clone()),
        |it| it.0.append(&mut it.1)
    );
}

/// A way to make a string of a number.
type Text = (&'static str, fn(u64) -> Vec<u8>);

/// A word of ten bytes, as bench/texts.h has them, and a longer string of which many begin alike.
const TEXTS: [Text; 2] = [("words-of-10", word_of_10), ("urls-of-55", url_of_55)];

fn word_of_10(mut number: u64) -> Vec<u8> {
    let mut word = Vec::new();
    for _ in 0..5 {
        word.push(b"bcdfghjklmnprstvwxyz"[number as usize % 20]);
        word.push(b"aeiou"[number as usize / 20 % 5]);
        number /= 100;
    }
    word
}

fn url_of_55(number: u64) -> Vec<u8> {
    let (site, section) = (number % 200, number / 200 % 1000);
    format!("https://www.site-{site:03}.example/section-{section:04}/{number:010}").into_bytes()
}

fn measure_texts(pattern: &str, keys: &[Vec<u8>]) {
    let pairs = || keys.iter().map(|key| (key.clone(), 1));
    let others = || keys.iter().map(|key| ([key.as_slice(), b"+"].concat(), 1));
    let (map, plain): (JudySl, BTreeMap<Vec<u8>, u64>) = (pairs().collect(), pairs().collect());
    let (more, plain_more): (JudySl, BTreeMap<Vec<u8>, u64>) =
        (others().collect(), others().collect());
    let told = (pattern, keys.len());
    side_by_side!("judysl", "iterate", told, || &map, || &plain, |it| it
        .iter()
        .for_each(|pair| see(pair.1)));
    side_by_side!("judysl", "iterate-back", told, || &map, || &plain, |it| it
        .iter()
        .rev()
        .for_each(|pair| see(pair.1)));
    side_by_side!("judysl", "clone", told, || &map, || &plain, |it| drop(
        it.clone()
    ));
    side_by_side!(
        "judysl",
        "retain",
        told,
        || map.clone(),
        || plain.clone(),
        |it| it.retain(|key, _| key[key.len() - 1] % 3 != 0)
    );
    side_by_side!(
        "judysl",
        "append",
        told,
        || (map.clone(), more.clone()),
        || (plain.clone(), plain_more.clone()),
        |it| it.0.append(&mut it.1)
    );
    side_by_side!(
        "judysl",
        "pop_first",
        told,
        || map.clone(),
        || plain.clone(),
        |it| while it.pop_first().is_some() {}
    );
    side_by_side!(
        "judysl",
        "pop_last",
        told,
        || map.clone(),
        || plain.clone(),
        |it| while it.pop_last().is_some() {}
    );
    side_by_side!(
        "judysl",
        "retain-few",
        told,
        || map.clone(),
        || plain.clone(),
        |it| it.retain(|key, _| key[key.len() - 1] % 32 == 0)
    );
    side_by_side!(
        "judysl",
        "into_iter",
        told,
        || map.clone(),
        || plain.clone(),
        |it| it.into_iter().for_each(|pair| see(pair.1))
    );
    side_by_side!("judysl", "values", told, || &map, || &plain, |it| it
        .values()
        .for_each(|value| see(value)));
    side_by_side!("judysl", "extend", told, JudySl::new, BTreeMap::new, |it| {
        it.extend(pairs())
    });
    measure_ranges(told, keys, &map, &plain);
    measure_hashed(told, keys);
}

/// Five pairs from a key on.
fn measure_ranges(told: Keys, keys: &[Vec<u8>], map: &JudySl, plain: &BTreeMap<Vec<u8>, u64>) {
    let ours = |key: &[u8]| {
        let range = map.range((Bound::Included(key), Bound::Unbounded));
        range.take(5).for_each(|pair| see(pair.1));
    };
    let std = |key: &[u8]| {
        let range = plain.range::<[u8], _>((Bound::Included(key), Bound::Unbounded));
        range.take(5).for_each(|pair| see(pair.1));
    };
    side_by_side!("judysl", "range", told, || ours, || std, |it| keys
        .iter()
        .for_each(|key| it(key)));
}

fn measure_hashed(told: Keys, keys: &[Vec<u8>]) {
    let pairs = || keys.iter().map(|key| (key.clone(), 1));
    let (hashed, plain): (JudyHs, HashMap<Vec<u8>, u64>) = (pairs().collect(), pairs().collect());
    side_by_side!("judyhs", "extend", told, JudyHs::new, HashMap::new, |it| it
        .extend(pairs()));
    side_by_side!(
        "judyhs",
        "into_iter",
        told,
        || hashed.clone(),
        || plain.clone(),
        |it| it.into_iter().for_each(|pair| see(pair.1))
    );
    side_by_side!("judyhs", "values", told, || &hashed, || &plain, |it| it
        .values()
        .for_each(|value| see(value)));
    side_by_side!("judyhs", "iterate", told, || &hashed, || &plain, |it| it
        .iter()
        .for_each(|pair| see(pair.1)));
    side_by_side!("judyhs", "clone", told, || &hashed, || &plain, |it| drop(
        it.clone()
    ));
    side_by_side!(
        "judyhs",
        "retain",
        told,
        || hashed.clone(),
        || plain.clone(),
        |it| it.retain(|key, _| key[key.len() - 1] % 3 != 0)
    );
}

/// The walk of an iterator by the call of C that each of its steps makes, without the iterator.
fn walk_by_the_call(map: &JudyL) {
    let mut from = Some(0);
    while let Some((key, value)) = from.and_then(|from| map.at_or_after(from)) {
        see(value);
        from = key.checked_add(1);
    }
}

fn main() {
    let asked = std::env::args().skip(1).filter_map(|it| it.parse().ok());
    let counts: Vec<u64> = asked.collect();
    let counts = if counts.is_empty() {
        vec![10_000, 200_000]
    } else {
        counts
    };
    for count in counts {
        for (pattern, key) in PATTERNS {
            measure(pattern, &(0..count).map(key).collect::<Vec<_>>());
        }
        for (pattern, key) in TEXTS {
            let numbers = (0..count).map(|n| n.wrapping_mul(0x9e37_79b9_7f4a_7c15) >> 31);
            measure_texts(pattern, &numbers.map(key).collect::<Vec<_>>());
        }
    }
}
