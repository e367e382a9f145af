//! Maps from strings and byte strings beside std's, over random changes of keys that share their beginnings.
use sellumaq::{InsertError, JudyHs, JudySl};
use std::collections::{BTreeMap, HashMap};
use std::mem::replace;
use std::ops::Bound::{Excluded, Included, Unbounded};

struct Strings(u64);

impl Strings {
    fn any(&mut self) -> u64 {
        self.0 ^= self.0 << 13;
        self.0 ^= self.0 >> 7;
        self.0 ^= self.0 << 17;
        self.0
    }

    /// A string over a few bytes, so that keys come again, begin one another, and are cut anywhere in their pieces of
    /// eight bytes.
    fn of(&mut self, bytes: &[u8]) -> Vec<u8> {
        let shared = [0, 0, 7, 8, 9, 40, 1023, 4097][self.any() as usize % 8];
        let own = self.any() % 4;
        let mut string = vec![bytes[0]; shared];
        string.extend((0..own).map(|_| bytes[self.any() as usize % bytes.len()]));
        string
    }
}

type Plain = BTreeMap<Vec<u8>, u64>;

fn pair(it: (&Vec<u8>, &u64)) -> (Vec<u8>, u64) {
    (it.0.clone(), *it.1)
}

fn same(map: &JudySl, plain: &Plain) {
    assert!(map.iter().eq(plain.iter().map(pair)));
    assert!(map.iter().rev().eq(plain.iter().rev().map(pair)));
    assert!(map.keys().eq(plain.keys().cloned()));
    assert!(map.values().eq(plain.values().copied()));
    assert_eq!(map.first_key_value(), plain.iter().next().map(pair));
    assert_eq!(map.last_key_value(), plain.iter().next_back().map(pair));
    assert_eq!(&map.clone(), map);
    assert_eq!(
        &plain
            .iter()
            .map(|(key, value)| (key, *value))
            .collect::<JudySl>(),
        map
    );
}

#[test]
fn a_map_of_strings_is_a_map() {
    let (mut strings, mut map, mut plain) = (Strings(1), JudySl::new(), Plain::new());
    for turn in 0..4000 {
        let (key, value) = (strings.of(b"a\x01z\xff"), strings.any());
        match strings.any() % 4 {
            0 => assert_eq!(map.remove(&key), plain.remove(&key)),
            1 => {
                let slot = map.slot(&key).unwrap();
                assert_eq!(*slot, plain.get(&key).copied().unwrap_or(0));
                *slot = value;
                plain.insert(key.clone(), value);
            }
            2 => assert_eq!(
                map.get_mut(&key).map(|it| replace(it, value)),
                plain.get_mut(&key).map(|it| replace(it, value))
            ),
            _ => assert_eq!(map.insert(&key, value), plain.insert(key.clone(), value)),
        }
        // the ends of a range need be no keys
        let (one, other) = (strings.of(b"az\0"), strings.of(b"a\xff\0"));
        let (from, to) = (one.clone().min(other.clone()), one.max(other));
        assert_eq!(
            (map.get(&key), map.contains_key(&from)),
            (plain.get(&key).copied(), plain.contains_key(&from))
        );
        assert_eq!(map.len(), plain.len());
        assert_eq!(
            map.at_or_after(&from),
            plain.range(from.clone()..).next().map(pair)
        );
        assert_eq!(map.rank(&from), plain.range(..from.clone()).count());
        assert_eq!(
            [
                map.count(from.clone()..=to.clone()),
                map.count(from.clone()..to.clone()),
                map.count((Excluded(&from), Unbounded)),
            ],
            [
                plain.range(from.clone()..=to.clone()).count(),
                plain.range(from.clone()..to.clone()).count(),
                plain.range((Excluded(from.clone()), Unbounded)).count(),
            ]
        );
        let place = turn % 97;
        assert_eq!(map.nth(place), plain.iter().nth(place).map(pair));
        assert_eq!(
            map.at_or_before(&to),
            plain.range(..=to.clone()).next_back().map(pair)
        );
        assert!(map
            .range(from.clone()..=to.clone())
            .eq(plain.range(from.clone()..=to.clone()).map(pair)));
        assert!(map
            .range((Excluded(&from), Unbounded))
            .eq(plain.range((Excluded(from.clone()), Unbounded)).map(pair)));
        assert!(map
            .range(from.clone()..to.clone())
            .rev()
            .eq(plain.range(from..to).rev().map(pair)));
        if turn % 100 == 0 {
            same(&map, &plain);
        }
    }
    same(&map, &plain);
    map.clear();
    assert!(map.is_empty() && map.iter().next().is_none());
}

#[test]
fn a_map_of_byte_strings_is_a_map() {
    let (mut strings, mut map, mut plain) = (Strings(2), JudyHs::new(), HashMap::new());
    for _ in 0..8000 {
        let (key, value) = (strings.of(b"a\0z\xff"), strings.any());
        match strings.any() % 4 {
            0 => assert_eq!(map.remove(&key), plain.remove(&key)),
            1 => assert_eq!(
                replace(map.slot(&key).unwrap(), value),
                plain.insert(key.clone(), value).unwrap_or(0)
            ),
            2 => assert_eq!(
                map.get_mut(&key).map(|it| replace(it, value)),
                plain.get_mut(&key).map(|it| replace(it, value))
            ),
            _ => assert_eq!(map.insert(&key, value), plain.insert(key.clone(), value)),
        }
        let other = strings.of(b"a\0z\xff");
        assert_eq!(
            (map.get(&other), map.contains_key(&other)),
            (plain.get(&other).copied(), plain.contains_key(&other))
        );
        assert_eq!((map.len(), map.is_empty()), (plain.len(), plain.is_empty()));
    }
    let mut pairs: Vec<_> = plain
        .iter()
        .map(|(key, value)| (key.clone(), *value))
        .collect();
    pairs.sort_by(|one, other| (one.0.len(), &one.0).cmp(&(other.0.len(), &other.0)));
    assert!(
        map.iter().eq(pairs.iter().cloned()) && map.iter().rev().eq(pairs.iter().rev().cloned())
    );
    assert!(map.clone() == map && map != JudyHs::new());
    map.retain(|_, value| *value % 2 == 0);
    assert!(map.values().eq(pairs
        .iter()
        .map(|pair| pair.1)
        .filter(|value| value % 2 == 0)));
    assert_eq!(format!("{:?}", JudyHs::from([("a", 1)])), r#"{"a": 1}"#);
    let copied: JudyHs = plain.iter().map(|(key, value)| (key, *value)).collect();
    assert!(plain
        .iter()
        .all(|(key, value)| copied.get(key) == Some(*value)));
}

#[test]
fn bytes_that_are_no_key() {
    let (long, longer) = ([0xff; 1024], [0xff; 1025]);
    let zero = [&longer[..], b"\0"].concat();
    let mut strings = JudySl::new();
    assert_eq!(
        (strings.insert(long, 1), strings.insert("", 2)),
        (None, None)
    );
    assert_eq!(strings.try_insert(&zero, 3), Err(InsertError::BadKey));
    assert_eq!(strings.try_insert("a\0b", 3), Err(InsertError::BadKey));
    assert_eq!(strings.slot(&zero), Err(InsertError::BadKey));
    assert_eq!((strings.get(&zero), strings.get("\0")), (None, None));
    assert_eq!(strings.get_mut("\0"), None);
    assert_eq!(strings.remove("\0"), None);
    assert_eq!(strings.len(), 2);
    assert_eq!(
        strings.range((Included(&longer[..]), Unbounded)).next(),
        None
    );
    assert_eq!(strings.at_or_before(longer), Some((long.to_vec(), 1)));
    assert_eq!(strings.at_or_before(&zero), Some((long.to_vec(), 1)));
    assert_eq!(strings.range(.."\0").collect::<Vec<_>>(), [(vec![], 2)]);
}

/// Keys of any length, also such as have more bytes than a walk has room for at first.
#[test]
fn long_byte_strings() {
    let key = |length| vec![b'k'; length];
    let lengths = [0, 1024, 1025, 3542, 100_000];
    let mut map: JudyHs = lengths.iter().map(|&it| (key(it), it as u64)).collect();
    assert!(map.keys().map(|it| it.len()).eq(lengths));
    assert_eq!((map.get(key(3542)), map.get(key(3541))), (Some(3542), None));
    assert_eq!(map.remove(key(100_000)), Some(100_000));
    assert!(map.values().eq([0, 1024, 1025, 3542]));
}

/// What a map takes as it begins, with a thousand keys, when most have gone, when the others stand together, when these
/// have gone too, and when it is cleared.
macro_rules! bytes_taken {
    ($map:expr) => {
        let mut map = $map;
        let key = |n: u64| format!("{:016x} and more", n.wrapping_mul(0x9e37_79b9_7f4a_7c15));
        assert_eq!(map.bytes(), 0);
        (0..1000).for_each(|n| assert_eq!(map.insert(key(n), n), None));
        let all = map.bytes();
        assert!((16_000..200_000).contains(&all), "{all}");
        (0..1000)
            .filter(|n| n % 10 > 0)
            .for_each(|n| assert_eq!(map.remove(key(n)), Some(n)));
        let few = map.bytes();
        map.shrink_to_fit();
        assert!(map.bytes() < few && few < all, "{} {few}", map.bytes());
        (0..100).for_each(|n| assert_eq!(map.remove(key(10 * n)), Some(10 * n)));
        assert!((1..1000).contains(&map.bytes()), "{}", map.bytes());
        map.clear();
        assert_eq!(map.bytes(), 0);
    };
}

#[test]
fn bytes_that_strings_take() {
    bytes_taken!(JudySl::new());
    bytes_taken!(JudyHs::new());
}

#[test]
#[should_panic = "not the bytes of a key"]
fn an_insert_panics_at_bytes_that_are_no_key() {
    JudySl::new().insert("a\0", 1);
}

#[test]
fn both_ends_meet() {
    let map: JudySl = ["", "b", "bc"].into_iter().zip(1..).collect();
    let mut entries = map.iter();
    assert_eq!(entries.next_entry(), Some((&b""[..], 1)));
    assert_eq!(entries.next_back_entry(), Some((&b"bc"[..], 3)));
    assert_eq!(entries.next_entry(), Some((&b"b"[..], 2)));
    assert_eq!(
        (entries.next(), entries.next_back(), entries.next()),
        (None, None, None)
    );
    assert_eq!(map.range("c".."b").next(), None);
    assert_eq!(format!("{map:?}"), r#"{"": 1, "b": 2, "bc": 3}"#);
}
