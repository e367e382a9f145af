//! Sets and maps of words beside std's, over random changes of few and of many words.
use sellumaq::{Judy1, JudyL};
use std::collections::{BTreeMap, BTreeSet};

/// Words that look random: those of a small range, or of all, so that keys come again and stand at both ends.
struct Words(u64);

impl Words {
    fn any(&mut self) -> u64 {
        self.0 ^= self.0 << 13;
        self.0 ^= self.0 >> 7;
        self.0 ^= self.0 << 17;
        self.0
    }

    fn key(&mut self) -> u64 {
        match self.any() % 4 {
            0 => self.any() % 64,
            1 => u64::MAX - self.any() % 64,
            2 => self.any() % 4096 * 16,
            _ => self.any() >> (self.any() % 64),
        }
    }
}

#[test]
fn a_set_is_a_set() {
    let (mut words, mut set, mut plain) = (Words(1), Judy1::new(), BTreeSet::new());
    for turn in 0..4000 {
        let key = words.key();
        if words.any() % 3 > 0 {
            assert_eq!(set.insert(key), plain.insert(key));
        } else {
            let held = plain
                .iter()
                .nth((words.any() % (plain.len() as u64 + 1)) as usize)
                .copied()
                .unwrap_or(key);
            assert_eq!(set.remove(held), plain.remove(&held));
        }
        let (from, to) = (words.key().min(key), words.key().max(key));
        assert_eq!(set.contains(from), plain.contains(&from));
        assert_eq!(set.len(), plain.len());
        assert_eq!(
            (set.first(), set.last()),
            (
                plain.iter().next().copied(),
                plain.iter().next_back().copied()
            )
        );
        assert_eq!(set.at_or_after(from), plain.range(from..).next().copied());
        assert_eq!(
            set.at_or_before(to),
            plain.range(..=to).next_back().copied()
        );
        assert_eq!(set.count(from..to), plain.range(from..to).count());
        let n = words.any() as usize % (plain.len() + 2);
        assert_eq!(set.nth(n), plain.iter().nth(n).copied());
        if turn % 100 == 0 {
            assert!(set.iter().eq(plain.iter().copied()));
            assert!(set
                .range(from..=to)
                .rev()
                .eq(plain.range(from..=to).rev().copied()));
            assert_eq!(format!("{set:?}"), format!("{plain:?}"));
            assert_eq!(set.clone(), set);
            let keys: Vec<u64> = (0..words.any() % 150).map(|_| words.key()).collect();
            let mut there = vec![turn % 200 == 0; keys.len()];
            set.contains_many(&keys, &mut there);
            assert!(there
                .into_iter()
                .eq(keys.iter().map(|key| plain.contains(key))));
        }
    }
    let absent = (0..).find(|word| !plain.contains(word));
    assert_eq!(set.absent_at_or_after(0), absent);
    assert_eq!(
        set.absent_at_or_before(u64::MAX),
        (0..=u64::MAX).rev().find(|word| !plain.contains(word))
    );
    set.clear();
    assert!(set.is_empty() && set.iter().next().is_none());
}

#[test]
fn a_map_is_a_map() {
    let (mut words, mut map, mut plain) = (Words(2), JudyL::new(), BTreeMap::new());
    for turn in 0..4000 {
        let (key, value) = (words.key(), words.any());
        match words.any() % 5 {
            0 => assert_eq!(map.remove(key), plain.remove(&key)),
            1 => {
                let slot = map.slot(key).unwrap();
                assert_eq!(*slot, plain.get(&key).copied().unwrap_or(0));
                *slot = value;
                plain.insert(key, value);
            }
            2 => assert_eq!(
                map.get_mut(key).map(|it| std::mem::replace(it, value)),
                plain.get_mut(&key).map(|it| std::mem::replace(it, value))
            ),
            3 => assert_eq!(map.put(key, value), plain.insert(key, value).is_none()),
            _ => assert_eq!(map.insert(key, value), plain.insert(key, value)),
        }
        let (from, to) = (words.key().min(key), words.key().max(key));
        assert_eq!(map.get(from), plain.get(&from).copied());
        assert_eq!(map.contains_key(to), plain.contains_key(&to));
        assert_eq!(map.len(), plain.len());
        assert_eq!(
            map.at_or_after(from),
            plain.range(from..).next().map(|it| (*it.0, *it.1))
        );
        assert_eq!(
            map.at_or_before(to),
            plain.range(..=to).next_back().map(|it| (*it.0, *it.1))
        );
        assert_eq!(map.count(from..to), plain.range(from..to).count());
        if turn % 100 == 0 {
            assert!(map.iter().eq(plain.iter().map(|it| (*it.0, *it.1))));
            assert!(map.keys().rev().eq(plain.keys().rev().copied()));
            assert!(map.values().eq(plain.values().copied()));
            assert_eq!(format!("{map:?}"), format!("{plain:?}"));
            assert_eq!(
                map.first_key_value(),
                plain.iter().next().map(|it| (*it.0, *it.1))
            );
            assert_eq!(
                map.last_key_value(),
                plain.iter().next_back().map(|it| (*it.0, *it.1))
            );
            assert_eq!(map.clone(), map);
            let keys: Vec<u64> = (0..words.any() % 150).map(|_| words.key()).collect();
            let mut values = vec![Some(7); keys.len()];
            map.get_many(&keys, &mut values);
            assert!(values
                .into_iter()
                .eq(keys.iter().map(|key| plain.get(key).copied())));
        }
    }
    assert_eq!(map.nth(7), plain.iter().nth(7).map(|it| (*it.0, *it.1)));
}

/// What an array takes as it begins, with one key, with a thousand more, when these have gone, and when it is cleared.
#[test]
fn bytes_that_words_take() {
    let keys = || (1..=1000u64).map(|n| n.wrapping_mul(0x9e37_79b9_7f4a_7c15));
    let mut set = Judy1::new();
    assert_eq!(set.bytes(), 0);
    assert!(set.insert(0) && (1..=40).contains(&set.bytes()));
    set.extend(keys());
    assert!((7000..100_000).contains(&set.bytes()), "{}", set.bytes());
    assert!(keys().all(|key| set.remove(key)) && (1..=40).contains(&set.bytes()));
    set.clear();
    assert_eq!(set.bytes(), 0);

    let mut map = JudyL::new();
    assert_eq!(map.bytes(), 0);
    assert!(map.put(0, 1) && (1..=40).contains(&map.bytes()));
    map.extend(keys().map(|key| (key, key)));
    assert!((8000..100_000).contains(&map.bytes()), "{}", map.bytes());
    assert!(keys().all(|key| map.remove(key) == Some(key)) && (1..=40).contains(&map.bytes()));
    map.clear();
    assert_eq!(map.bytes(), 0);
}

/// Walks down from any word to any other, over fewer keys than a call brings and over more, some turned on the way.
#[test]
fn walks_that_go_down() {
    let mut words = Words(5);
    for (count, gap) in [
        (0, 1),
        (1, 7),
        (2, 1 << 40),
        (9, 3),
        (136, 1),
        (137, 256),
        (1000, 1),
        (1000, 65_537),
    ] {
        let plain: BTreeMap<u64, u64> = (0..count).map(|n| (u64::MAX - n * gap, n)).collect();
        let set: Judy1 = plain.keys().copied().collect();
        let mut map: JudyL = plain.iter().map(|(key, value)| (*key, *value)).collect();
        for _ in 0..60 {
            let mut end =
                || u64::MAX - (words.any() % (count + 2) * gap).saturating_sub(words.any() % 2);
            let (one, other) = (end(), end());
            let (from, to) = (one.min(other), one.max(other));
            let pairs = || plain.range(from..=to).map(|(key, value)| (*key, *value));
            assert!(set
                .range(from..=to)
                .rev()
                .eq(pairs().rev().map(|pair| pair.0)));
            assert!(map.range(from..=to).rev().eq(pairs().rev()));
            assert!(map
                .range_mut(from..=to)
                .rev()
                .map(|(key, value)| (key, *value))
                .eq(pairs().rev()));
            let (mut ours, mut theirs) = (map.range(from..=to), pairs());
            for _ in 0..words.any() % (count + 1) {
                assert_eq!(ours.next_back(), theirs.next_back());
            }
            assert!(ours.clone().rev().eq(theirs.clone().rev()) && ours.eq(theirs));
        }
    }
}

#[test]
fn both_ends_meet() {
    let set: Judy1 = [0, 5, u64::MAX].into_iter().collect();
    let mut keys = set.iter();
    assert_eq!(
        (
            keys.next(),
            keys.next_back(),
            keys.next(),
            keys.next(),
            keys.next_back()
        ),
        (Some(0), Some(u64::MAX), Some(5), None, None)
    );
    assert_eq!(set.range(6..6).next(), None);
    assert_eq!(set.range(1..=4).next_back(), None);
}

/// Keys without gaps, and with some far apart, from both ends in turns that look random.
#[test]
fn runs_of_keys_from_both_ends() {
    let gaps = [100, 5_000, 5_001, 70_000, 200_000];
    let plain: BTreeSet<u64> = (7..300_000)
        .filter(|key| !gaps.contains(key))
        .chain([u64::MAX])
        .collect();
    let set: Judy1 = plain.iter().copied().collect();
    assert!(set.iter().eq(plain.iter().copied()));
    for (from, to) in [
        (0, u64::MAX),
        (64, 4_999),
        (4_000, 150_000),
        (250_000, 299_999),
        (100_000, 100_063),
    ] {
        let (mut ours, mut theirs) = (set.range(from..=to), plain.range(from..=to));
        assert!(ours.clone().eq(theirs.clone().copied()));
        assert!(ours.clone().rev().eq(theirs.clone().rev().copied()));
        let mut words = Words(from + 3);
        for _ in 0..200 {
            let steps = words.any() % 700;
            for _ in 0..steps {
                assert_eq!(ours.next(), theirs.next().copied());
            }
            for _ in 0..words.any() % 3 {
                assert_eq!(ours.next_back(), theirs.next_back().copied());
            }
            assert_eq!(ours.clone().last(), theirs.clone().next_back().copied());
        }
    }
}
