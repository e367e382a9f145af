//! Maps from strings whose keys are longer than the room that a call brings: what is told of them from both ends,
//! beside std's map, and what becomes of them where memory is refused.
use sellumaq::{DumpFault, InsertError, JudySl, MAX_SAVED_KEY};
use std::collections::BTreeMap;
use std::ops::Bound::{Excluded, Included, Unbounded};

mod refuser;

use refuser::Refuser;

type Plain = BTreeMap<Vec<u8>, u64>;

const LENGTHS: [usize; 6] = [0, 1024, 1025, 4096, 65_537, 4 << 20];

/// A key of so many bytes, all alike but the last one.
fn key(length: usize, first: u8, last: u8) -> Vec<u8> {
    let mut key = vec![first; length];
    if let Some(end) = key.last_mut() {
        *end = last;
    }
    key
}

/// Keys of each length: three that share all but the last byte, and one that begins otherwise.
fn plain() -> Plain {
    plain_of(&LENGTHS)
}

fn plain_of(lengths: &[usize]) -> Plain {
    let keys = lengths.iter().flat_map(|&length| {
        let others = [key(length, b'a', b'b'), key(length, 0xff, 0xff)];
        [key(length, b'a', b'a'), key(length, b'a', b'c')]
            .into_iter()
            .chain(others)
    });
    keys.zip(1..).collect()
}

fn pair(it: (&Vec<u8>, &u64)) -> (Vec<u8>, u64) {
    (it.0.clone(), *it.1)
}

fn map_of(plain: &Plain) -> JudySl {
    plain.iter().map(|(key, value)| (key, *value)).collect()
}

#[test]
fn each_key_is_found_and_goes() {
    let mut plain = plain();
    let mut map = map_of(&plain);
    assert_eq!((map.len(), map.longest_key_len()), (plain.len(), 4 << 20));
    for (key, value) in &plain {
        assert_eq!((map.get(key), map[key]), (Some(*value), *value));
        assert_eq!(map.get_key_value(key), Some((key.clone(), *value)));
        let absent = [&key[..], b"z"].concat();
        assert_eq!((map.get(&absent), map.remove(&absent)), (None, None));
        let (told, length) = map.longest_prefix(&absent).unwrap();
        assert_eq!((told, length), (&key[..], *value));
    }
    for key in plain.keys().step_by(2).cloned().collect::<Vec<_>>() {
        assert_eq!(map.remove(&key), plain.remove(&key));
        assert!(!map.contains_key(&key));
    }
    assert!(map.iter().eq(plain.iter().map(pair)));
    while let Some(last) = map.pop_last() {
        assert_eq!(plain.remove(&last.0), Some(last.1));
        assert_eq!(
            map.pop_first(),
            plain.iter().next().map(pair).map(|(key, value)| {
                plain.remove(&key);
                (key, value)
            })
        );
    }
    assert!(plain.is_empty() && map.is_empty());
}

#[test]
fn walks_from_both_ends() {
    let plain = plain();
    let map = map_of(&plain);
    assert!(map.iter().eq(plain.iter().map(pair)));
    assert!(map.iter().rev().eq(plain.iter().rev().map(pair)));
    assert!(map.clone().into_iter().eq(plain.clone()));
    let (mut ours, mut theirs) = (map.iter(), plain.iter());
    for turn in 0..plain.len() + 2 {
        if turn % 3 == 0 {
            assert_eq!(ours.next_back(), theirs.next_back().map(pair));
        } else {
            assert_eq!(ours.next(), theirs.next().map(pair));
        }
    }
    assert_eq!(map.first_key_value(), plain.iter().next().map(pair));
    assert_eq!(map.last_key_value(), plain.iter().next_back().map(pair));
    for at in 0..=plain.len() {
        assert_eq!(map.nth(at), plain.iter().nth(at).map(pair));
    }
    for (place, key) in plain.keys().enumerate() {
        assert_eq!((map.rank(key), map.count(..=key)), (place, place + 1));
    }
}

/// Ends of ranges around each key: it, a byte more, a byte less, and what a map can't hold.
fn ends(key: &[u8]) -> [Vec<u8>; 4] {
    [
        key.to_vec(),
        [key, b"\x01"].concat(),
        key[..key.len().saturating_sub(1)].to_vec(),
        [key, b"\0"].concat(),
    ]
}

#[test]
fn ranges_end_at_any_string() {
    let plain = plain_of(&LENGTHS[..5]);
    let map = map_of(&plain);
    for key in plain.keys() {
        for end in &ends(key) {
            let std = || plain.range::<[u8], _>((Included(&end[..]), Unbounded));
            assert!(map.range(end..).eq(std().map(pair)));
            assert_eq!(map.at_or_after(end), std().next().map(pair));
            let std = || plain.range::<[u8], _>((Unbounded, Included(&end[..])));
            assert_eq!(map.range(..=end).next_back(), std().next_back().map(pair));
            assert_eq!(map.at_or_before(end), std().next_back().map(pair));
            assert_eq!(map.count(..=end), std().count());
            let std = || plain.range::<[u8], _>((Unbounded, Excluded(&end[..])));
            assert_eq!(map.range(..end).last(), std().next_back().map(pair));
            assert_eq!(map.rank(end), std().count());
            let std = plain.iter().filter(|(key, _)| key.starts_with(end));
            assert!(map.with_prefix(end).eq(std.clone().map(pair)));
            assert!(map.with_prefix(end).rev().eq(std.rev().map(pair)));
        }
    }
}

/// Keys above all strings of 1,024 bytes of 0xff, which are the greatest of those that are no longer.
#[test]
fn no_key_lies_above_all_walks_down() {
    let mut map = JudySl::new();
    for length in [1, 1024, 1025, 1026, 70_000] {
        map.insert(vec![0xff; length], length as u64);
        assert_eq!(map.last_key_value().map(|it| it.1), Some(length as u64));
        assert_eq!(map.last_entry().map(|it| *it.get()), Some(length as u64));
        assert_eq!(map.values_mut().next_back(), Some(&mut (length as u64)));
        assert_eq!(map.iter().next_back().map(|it| it.1), Some(length as u64));
        assert_eq!(map.range(b"a"..).last().map(|it| it.1), Some(length as u64));
        let all = [0xff; 1000];
        assert_eq!(map.with_prefix(all).count(), map.len() - 1);
        assert_eq!(map.with_prefix(all).rev().count(), map.len() - 1);
    }
    assert!(map.values().rev().eq([70_000, 1026, 1025, 1024, 1]));
    assert!(map
        .values_mut()
        .rev()
        .map(|it| *it)
        .eq([70_000, 1026, 1025, 1024, 1]));
    assert_eq!(map.count(..), 5);
    // one that has gone leaves the others to be found
    map.remove([0xff; 70_000]);
    assert_eq!(map.longest_key_len(), 70_000);
    assert_eq!(map.pop_last().map(|it| it.1), Some(1026));
    map.clear();
    assert_eq!((map.longest_key_len(), map.last_key_value()), (0, None));
    assert_eq!(map.iter().next_back(), None);
}

/// One long key among many short ones, at each end of pages.
#[test]
fn a_long_key_between_short_ones() {
    for place in [0, 1, 63, 64, 65, 700, 1000] {
        let mut plain: Plain = (0..1000)
            .map(|n| (format!("key {n:04}").into_bytes(), n))
            .collect();
        let front = format!("key {place:04}");
        plain.insert([front.as_bytes(), &[b'x'; 9000]].concat(), 5);
        let mut map = map_of(&plain);
        assert!(map.iter().eq(plain.iter().map(pair)));
        assert!(map.iter().rev().eq(plain.iter().rev().map(pair)));
        for (key, value) in &mut map {
            assert_eq!(plain[&key], *value);
            *value += 1;
        }
        assert!(map.values().eq(plain.values().map(|value| value + 1)));
        map.retain(|key, _| key.len() > 8);
        assert_eq!((map.len(), map.values().next()), (1, Some(6)));
    }
}

#[test]
fn ranges_and_prefixes_go() {
    let plain = plain();
    let keys: Vec<_> = plain.keys().collect();
    for (from, to) in [(0, 3), (5, 20), (keys.len() - 2, keys.len() - 1), (7, 7)] {
        let (mut map, range) = (map_of(&plain), keys[from].clone()..keys[to].clone());
        assert_eq!(map.remove_range(range.clone()), to - from);
        let left = plain.iter().filter(|(key, _)| !range.contains(key));
        assert!(map.iter().eq(left.map(pair)));
        let mut map = map_of(&plain);
        assert!(map
            .split_off(keys[to])
            .iter()
            .eq(plain.range(keys[to].clone()..).map(pair)));
        assert_eq!(map.len(), to);
    }
    let plain = plain_of(&LENGTHS[..5]);
    for key in plain.keys() {
        let mut map = map_of(&plain);
        let (gone, left): (Vec<_>, Vec<_>) =
            plain.iter().partition(|(other, _)| other.starts_with(key));
        assert_eq!(map.remove_prefix(key), gone.len());
        assert!(map.iter().eq(left.into_iter().map(pair)));
    }
}

#[test]
fn two_maps_of_long_keys() {
    let plain = plain();
    let mut halves = (Plain::new(), Plain::new());
    for (n, (key, value)) in plain.clone().into_iter().enumerate() {
        if n % 3 > 0 {
            halves.0.insert(key.clone(), value);
        }
        if n % 3 < 2 {
            halves.1.insert(key, value);
        }
    }
    let (one, other) = (map_of(&halves.0), map_of(&halves.1));
    assert_eq!(&one | &other, map_of(&plain));
    let both = plain.iter().enumerate().filter(|(n, _)| n % 3 == 1);
    assert!((&one & &other).iter().eq(both.map(|it| pair(it.1))));
    let first = plain.iter().enumerate().filter(|(n, _)| n % 3 == 2);
    assert!((&one - &other).iter().eq(first.map(|it| pair(it.1))));
    let only = plain.iter().enumerate().filter(|(n, _)| n % 3 != 1);
    assert!((&one ^ &other).keys().eq(only.map(|it| it.1 .0.clone())));
    let all = map_of(&plain);
    assert!(one.is_subset(&all) && !all.is_subset(&one) && all.has_same_keys(&all.clone()));
    assert!(one < all || all < one);
    assert_eq!(all.cmp(&one), plain.cmp(&halves.0));
}

/// A dump says keys of 1,024 bytes at most.
#[test]
fn only_short_keys_are_saved() {
    let mut map = JudySl::from([(vec![b'k'; MAX_SAVED_KEY], 1)]);
    let bytes = map.to_bytes().unwrap();
    assert_eq!(JudySl::from_bytes(&bytes).as_ref(), Ok(&map));
    map.insert(vec![b'k'; MAX_SAVED_KEY + 1], 2);
    assert_eq!(map.to_bytes(), Err(DumpFault::BadKey));
    assert!(map.save("/nowhere/strings").is_err() && map.len() == 2);
    map.remove(vec![b'k'; MAX_SAVED_KEY + 1]);
    assert_eq!(map.to_bytes().as_ref(), Ok(&bytes));
}

#[test]
fn long_keys_without_memory() {
    let refuser = match Refuser::find() {
        Some(refuser) => refuser,
        None => return,
    };
    let (mut map, mut held, mut failed) = (JudySl::new(), Plain::new(), 0);
    for (key, value) in plain() {
        let same = |map: &JudySl| map.iter().eq(held.iter().map(pair));
        let insert = |map: &mut JudySl| map.try_insert(&key, value);
        let (told, more) = refuser.in_turn(&mut map, InsertError::NoMemory, insert, same);
        assert_eq!((told, held.insert(key.clone(), value)), (None, None));
        failed += more;
    }
    assert!(failed > held.len() as i64, "{failed}");
    for (key, value) in &held {
        let (told, _) = refuser.from(1, || {
            (map.get(key), map.try_insert(key, 5), map.remove(key))
        });
        assert_eq!(told, (Some(*value), Ok(Some(*value)), Some(5)));
    }
    assert!(map.is_empty());
}
