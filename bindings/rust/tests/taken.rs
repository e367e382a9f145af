//! What is taken out of arrays while they are gone through, few keys and many, beside std's; and walks over strings
//! from both ends.
use sellumaq::{Judy1, JudyHs, JudyL, JudySl};
use std::cell::Cell;
use std::collections::{BTreeMap, BTreeSet, HashMap};
use std::panic::{catch_unwind, AssertUnwindSafe};

fn mixed(n: u64) -> u64 {
    n.wrapping_add(1).wrapping_mul(0x9e37_79b9_7f4a_7c15) ^ (n >> 3)
}

/// Words close together, far apart, and both.
fn words() -> [Vec<u64>; 4] {
    [
        (0..2000).collect(),
        (0..2000).map(mixed).collect(),
        (0..2000).map(|n| n % 100 + n / 100 * 1_000_003).collect(),
        (0..50).chain([u64::MAX, u64::MAX - 1]).collect(),
    ]
}

/// How many of 128 keys go.
const PARTS: [u64; 6] = [0, 1, 40, 64, 127, 128];

fn goes(key: u64, part: u64) -> bool {
    mixed(key) >> 57 < part
}

#[test]
fn keys_that_go_beside_std() {
    for (keys, part) in words()
        .iter()
        .flat_map(|keys| PARTS.map(|part| (keys, part)))
    {
        let (mut set, mut map): (Judy1, JudyL) = (
            keys.iter().copied().collect(),
            keys.iter().map(|key| (*key, !key)).collect(),
        );
        let (mut plain_set, mut plain): (BTreeSet<u64>, BTreeMap<u64, u64>) = (
            keys.iter().copied().collect(),
            keys.iter().map(|key| (*key, !key)).collect(),
        );
        set.retain(|key| !goes(*key, part));
        plain_set.retain(|key| !goes(*key, part));
        assert!(set.iter().eq(plain_set.iter().copied()) && set.len() == plain_set.len());
        let mut keep = |key: &u64, value: &mut u64| {
            *value ^= key & 1;
            !goes(*key, part)
        };
        map.retain(&mut keep);
        plain.retain(keep);
        assert!(map
            .iter()
            .eq(plain.iter().map(|(key, value)| (*key, *value))));
        assert_eq!(map.len(), plain.len());
    }
}

/// The pairs that are left of `plain` where those are looked at up to a place among the keys, and the rest stays.
fn left_of(plain: &BTreeMap<u64, u64>, up_to: usize, part: u64) -> Vec<(u64, u64)> {
    let pairs = plain.iter().enumerate();
    let left = pairs.filter(|(at, (key, _))| *at >= up_to || !goes(**key, part));
    left.map(|(at, (key, value))| (*key, value ^ u64::from(at < up_to)))
        .collect()
}

#[test]
fn walks_that_end_early_leave_the_rest() {
    for (keys, part) in words()
        .iter()
        .flat_map(|keys| PARTS.map(|part| (keys, part)))
    {
        let plain: BTreeMap<u64, u64> = keys.iter().map(|key| (*key, key / 2 * 2)).collect();
        for up_to in [0, 1, 63, 65, 300, 1990].map(|up_to| keys.len().min(up_to)) {
            let map: JudyL = plain.iter().map(|(key, value)| (*key, *value)).collect();
            let (seen, mut panicked) = (Cell::new(0), map.clone());
            let act = |key: &u64, value: &mut u64| {
                assert!(seen.replace(seen.get() + 1) < up_to, "enough");
                *value ^= 1;
                goes(*key, part)
            };
            let hook = std::panic::take_hook();
            std::panic::set_hook(Box::new(|_| {}));
            let told = catch_unwind(AssertUnwindSafe(|| {
                panicked.retain(|key, value| !act(key, value));
            }));
            std::panic::set_hook(hook);
            assert_eq!(told.is_err(), up_to < keys.len());
            assert!(panicked.iter().eq(left_of(&plain, up_to, part)));
            assert_eq!(panicked.len(), left_of(&plain, up_to, part).len());
            // as many keys are taken, and then no more is looked at
            let taken = plain.keys().filter(|key| goes(**key, part)).count();
            let (mut dropped, seen) = (map, Cell::new(0));
            let look = |key: &u64, value: &mut u64| {
                seen.set(seen.get() + 1);
                *value ^= 1;
                goes(*key, part)
            };
            let out: Vec<_> = dropped
                .extract_if(.., look)
                .take(taken.min(up_to))
                .collect();
            assert_eq!(out.len(), taken.min(up_to));
            assert!(dropped.iter().eq(left_of(&plain, seen.get(), part)));
        }
    }
}

#[test]
fn byte_strings_that_are_chosen() {
    for part in PARTS {
        let key = |n: u64| mixed(n).to_string().into_bytes();
        let mut map: JudyHs = (0..500).map(|n| (key(n), n)).collect();
        let mut plain: HashMap<Vec<u8>, u64> = (0..500).map(|n| (key(n), n)).collect();
        let mut change = |_: &[u8], value: &mut u64| {
            *value += 1000;
            goes(*value, part)
        };
        let mut out: Vec<_> = map.extract_if(&mut change).collect();
        let mut plain_out = Vec::new();
        plain.retain(|key, value| {
            let chosen = change(key, value);
            plain_out.extend(chosen.then(|| (key.clone(), *value)));
            !chosen
        });
        out.sort_unstable();
        plain_out.sort_unstable();
        assert!(out == plain_out && map.len() == plain.len());
        assert!(plain
            .iter()
            .all(|(key, value)| map.get(key) == Some(*value)));
        map.extend(&plain);
        assert_eq!(map.len(), plain.len());
    }
    assert_eq!(
        JudyHs::from([("a", 1), ("b", 2)])
            .extract_if(|_, _| true)
            .next(),
        Some((b"a".to_vec(), 1))
    );
}

/// Short strings, and long ones of which few go on a page.
fn strings() -> [BTreeMap<Vec<u8>, u64>; 3] {
    let long = |n: u64| {
        [
            vec![b'x'; mixed(n) as usize % 1300 + 1],
            n.to_string().into_bytes(),
        ]
        .concat()
    };
    [
        (0..700)
            .map(|n| (mixed(n).to_string().into_bytes(), n))
            .collect(),
        (0..700).map(|n| (long(n), n)).collect(),
        [(vec![255; 1025], 1), (Vec::new(), 2)].into(),
    ]
}

#[test]
fn strings_from_both_ends() {
    for plain in &strings() {
        let map: JudySl = plain.iter().map(|(key, value)| (key, *value)).collect();
        for seed in 0..60 {
            let at = |n: u64| plain.keys().nth(mixed(n) as usize % plain.len()).unwrap();
            let (from, to) = (at(seed).min(at(seed + 100)), at(seed).max(at(seed + 100)));
            let mut ours = (
                map.iter(),
                map.range(from..),
                map.range(..to),
                map.range(from..to),
                map.range(..),
            );
            let own = |it: Option<(&Vec<u8>, &u64)>| it.map(|(key, value)| (key.clone(), *value));
            let mut theirs = (
                plain.iter(),
                plain.range(from.clone()..),
                plain.range(..to.clone()),
                plain.range(from.clone()..to.clone()),
                plain.range::<Vec<u8>, _>(..),
            );
            // so many of 128 steps go up
            let part = PARTS[seed as usize % PARTS.len()];
            for step in 0..plain.len() as u64 + 5 {
                if goes(step ^ seed << 20, part) {
                    assert_eq!(ours.0.next(), own(theirs.0.next()));
                    assert_eq!(ours.1.next(), own(theirs.1.next()));
                    assert_eq!(ours.2.next(), own(theirs.2.next()));
                    assert_eq!(ours.3.next(), own(theirs.3.next()));
                    assert_eq!(ours.4.next(), own(theirs.4.next()));
                } else {
                    assert_eq!(ours.0.next_back(), own(theirs.0.next_back()));
                    assert_eq!(ours.1.next_back(), own(theirs.1.next_back()));
                    assert_eq!(ours.2.next_back(), own(theirs.2.next_back()));
                    assert_eq!(ours.3.next_back(), own(theirs.3.next_back()));
                    assert_eq!(ours.4.next_back(), own(theirs.4.next_back()));
                }
                if step % 97 == 0 {
                    assert!(ours
                        .3
                        .clone()
                        .eq(theirs.3.clone().map(|it| own(Some(it)).unwrap())));
                    assert!(ours.1.clone().rev().eq(theirs
                        .1
                        .clone()
                        .rev()
                        .map(|it| own(Some(it)).unwrap())));
                }
            }
        }
    }
}

#[test]
fn strings_appended_either_way() {
    for (one, other) in [(3, 100), (100, 3), (0, 5), (5, 0), (50, 50)] {
        let pairs =
            |count: u64, value: u64| (0..count).map(move |n| (mixed(n).to_string(), n + value));
        let (mut map, mut more): (JudySl, JudySl) =
            (pairs(one, 0).collect(), pairs(other, 500).collect());
        let (mut plain, mut plain_more): (BTreeMap<_, _>, BTreeMap<_, _>) =
            (pairs(one, 0).collect(), pairs(other, 500).collect());
        map.append(&mut more);
        plain.append(&mut plain_more);
        assert!(more.is_empty() && map.len() == plain.len());
        assert!(plain
            .iter()
            .all(|(key, value)| map.get(key) == Some(*value)));
        map.extend(&plain);
        assert_eq!(map.len(), plain.len());
    }
}
