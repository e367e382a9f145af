//! Arrays made at once beside std's sets and maps.
use sellumaq::{FromSortedError, Judy1, JudyL, JudySl, NotAscending};
use std::collections::BTreeMap;

/// Words that look random.
fn words(count: u64, bits: u32) -> Vec<u64> {
    let step = |n: u64| n.wrapping_mul(0x9e37_79b9_7f4a_7c15) ^ (n << 7);
    (0..count).map(|n| step(n + 1) >> (64 - bits)).collect()
}

#[test]
fn keys_that_ascend_make_the_same_arrays() {
    for bits in [5, 9, 16, 33, 64] {
        for count in [0, 1, 2, 33, 300, 5000] {
            let map: BTreeMap<u64, u64> = words(count, bits).into_iter().zip(0..).collect();
            let made = JudyL::from_sorted(map.iter().map(|(key, value)| (*key, *value))).unwrap();
            assert!(made
                .iter()
                .eq(map.iter().map(|(key, value)| (*key, *value))));
            let set = Judy1::from_sorted(map.keys().copied()).unwrap();
            assert!(set.iter().eq(map.keys().copied()));
            assert_eq!((made.len(), set.len()), (map.len(), map.len()));
        }
    }
}

#[test]
fn others_are_told_by_their_place() {
    assert_eq!(Judy1::from_sorted([3, 3]).err(), Some(NotAscending(1)));
    let falling = JudyL::from_sorted([(1, 0), (4, 0), (2, 0), (9, 0)]);
    assert_eq!(falling.err(), Some(NotAscending(2)));
    let last = (0..1000).chain([998]);
    assert_eq!(Judy1::from_sorted(last).err(), Some(NotAscending(1000)));
}

#[test]
fn what_is_collected_needs_no_order() {
    let pairs = [(7, 1), (3, 2), (7, 3), (u64::MAX, 4), (0, 5)];
    let map: JudyL = pairs.into_iter().collect();
    let beside: BTreeMap<u64, u64> = pairs.into_iter().collect();
    assert!(map.iter().eq(beside));
    let set: Judy1 = pairs.iter().map(|pair| pair.0).collect();
    assert!(set.iter().eq([0, 3, 7, u64::MAX]));
}

/// Strings of many lengths that share their beginnings, each with a value.
fn strings(count: u64) -> BTreeMap<Vec<u8>, u64> {
    let string = |n: u64| {
        let mut string = vec![b'a'; [0, 1, 7, 8, 9, 40, 300][n as usize % 7]];
        string.extend(format!("{:x}", n >> (n % 60)).bytes());
        string
    };
    words(count, 64).into_iter().map(string).zip(0..).collect()
}

#[test]
fn strings_that_ascend_make_the_same_map() {
    for count in [0, 1, 2, 33, 300, 5000] {
        let mut plain = strings(count);
        if count > 2 {
            plain.extend([(vec![], 7), (vec![1], 8), (vec![0xff; 70_000], 9)]);
        }
        let made = JudySl::from_sorted(plain.iter().map(|(key, value)| (key, *value))).unwrap();
        let mut one_by_one = JudySl::new();
        one_by_one.extend(plain.iter().map(|(key, value)| (key, *value)));
        assert_eq!((made.len(), &made), (plain.len(), &one_by_one));
        assert_eq!(made.clone(), made);
        for (n, key) in plain.keys().enumerate() {
            assert_eq!(made.nth(n).map(|it| it.0).as_ref(), Some(key));
        }
        // it changes as one does whose keys were put in one by one
        let (mut changed, mut other) = (made.clone(), plain.clone());
        for key in plain.keys() {
            let half = &key[..key.len() / 2];
            assert_eq!(changed.remove(key), other.remove(key));
            assert_eq!(changed.insert(half, 1), other.insert(half.to_vec(), 1));
        }
        assert!(changed.into_iter().eq(other));
        assert!(made.into_iter().eq(plain));
    }
}

#[test]
fn strings_that_make_no_map_are_told_by_their_place() {
    use FromSortedError::{BadKey, NotAscending};
    let told = |keys: &[&[u8]]| JudySl::from_sorted(keys.iter().zip(0..)).err();
    let mut long = [1; 5000];
    assert_eq!(told(&[b"", &long[1..], &long, &[2]]), None);
    long[4999] = 0;
    assert_eq!(told(&[b"", b"a", b"a"]), Some(NotAscending(2)));
    assert_eq!(told(&[b"ab", b"a", b"\0"]), Some(NotAscending(1)));
    assert_eq!(told(&[b"a", b"b", b"b\0"]), Some(BadKey(2)));
    assert_eq!(told(&[&long, b"", b""]), Some(BadKey(0)));
    // bytes that are no key are told as that also where they aren't above the key before them
    assert_eq!(told(&[b"b", b"a\0"]), Some(BadKey(1)));
}
