//! Inserts that are refused for want of memory: each says so and leaves the array as it was. Memory is refused by
//! tests/refuse_alloc.c where that is preloaded, as `make check` does; where it isn't, nothing is tried.
use sellumaq::judyl::Entry;
use sellumaq::{DumpFault, InsertError, Judy1, JudyHs, JudyL, JudySl, LoadFault, NoMemory};
use std::collections::{BTreeMap, BTreeSet};
use std::num::NonZeroU8;

mod refuser;

use refuser::Refuser;

/// Words close together and far apart, none twice.
fn words() -> impl Iterator<Item = u64> {
    (0..40)
        .chain((1..100).map(|n| n << 16))
        .chain((1..100).map(|n: u64| n.wrapping_mul(0x9e37_79b9_7f4a_7c15)))
}

/// Strings that share their beginnings, none twice.
fn strings() -> impl Iterator<Item = Vec<u8>> {
    (0..150_usize).map(|n| format!("{}{n}", "shared ".repeat(n % 4 * 3)).into_bytes())
}

#[test]
fn a_set_without_memory() {
    let refuser = match Refuser::find() {
        Some(refuser) => refuser,
        None => return,
    };
    let (mut set, mut plain, mut failed) = (Judy1::new(), BTreeSet::new(), 0);
    for key in words() {
        let (told, more) = refuser.in_turn(
            &mut set,
            NoMemory,
            |set| set.try_insert(key),
            |set| set.iter().eq(plain.iter().copied()),
        );
        assert_eq!((told, plain.insert(key)), (true, true));
        failed += more;
    }
    assert!(failed > 20, "{failed}");
    for key in words() {
        assert_eq!(
            refuser
                .from(1, || (
                    set.try_insert(key),
                    set.remove(key),
                    set.contains(key)
                ))
                .0,
            (Ok(false), true, false)
        );
    }
    assert!(set.is_empty());
}

#[test]
fn a_map_without_memory() {
    let refuser = match Refuser::find() {
        Some(refuser) => refuser,
        None => return,
    };
    let (mut map, mut plain, mut failed) = (JudyL::new(), BTreeMap::new(), 0);
    for (turn, key) in words().enumerate() {
        let same = |map: &JudyL| {
            map.iter()
                .eq(plain.iter().map(|(key, value)| (*key, *value)))
        };
        failed += match turn % 3 {
            0 => {
                refuser
                    .in_turn(&mut map, NoMemory, |map| map.try_insert(key, key), same)
                    .1
            }
            1 => {
                refuser
                    .in_turn(&mut map, NoMemory, |map| map.try_put(key, key), same)
                    .1
            }
            _ => {
                refuser
                    .in_turn(
                        &mut map,
                        NoMemory,
                        |map| map.slot(key).map(|slot| *slot = key),
                        same,
                    )
                    .1
            }
        };
        assert_eq!((map.get(key), plain.insert(key, key)), (Some(key), None));
    }
    assert!(failed > 20, "{failed}");
    for key in words() {
        assert_eq!(
            refuser
                .from(1, || (
                    map.try_insert(key, 5),
                    map.try_put(key, 6),
                    map.remove(key)
                ))
                .0,
            (Ok(Some(key)), Ok(false), Some(6))
        );
    }
    assert!(map.is_empty());
}

#[test]
fn ranges_and_parts_without_memory() {
    let refuser = match Refuser::find() {
        Some(refuser) => refuser,
        None => return,
    };
    let plain: BTreeSet<u64> = words().collect();
    let map: JudyL = words().map(|key| (key, !key)).collect();
    let set: Judy1 = words().collect();
    let same = |set: &Judy1| set.iter().eq(plain.iter().copied());
    let filled = |set: &mut Judy1| set.try_insert_range(20..5000);
    let (told, failed) = refuser.in_turn(&mut set.clone(), NoMemory, filled, same);
    assert!(told == 4980 - plain.range(20..5000).count() && failed > 1);
    let flipped = |set: &mut Judy1| set.try_flip_range(20..5000);
    let (_, failed) = refuser.in_turn(&mut set.clone(), NoMemory, flipped, same);
    assert!(failed > 1);
    let split = |set: &mut Judy1| set.try_split_off(1 << 20);
    let (upper, failed) = refuser.in_turn(&mut set.clone(), NoMemory, split, same);
    assert!(upper.iter().eq(plain.range(1 << 20..).copied()) && failed > 1);
    let same_map = |told: &JudyL| *told == map;
    let split = |map: &mut JudyL| map.try_split_off(1 << 20);
    let (upper, failed) = refuser.in_turn(&mut map.clone(), NoMemory, split, same_map);
    assert!(upper.keys().eq(plain.range(1 << 20..).copied()) && failed > 1);
    let other: JudyL = (30..3000).map(|key| (key, key)).collect();
    let mut two = (map.clone(), other.clone());
    let same_two = |two: &(JudyL, JudyL)| two.0 == map && two.1 == other;
    let moved = |two: &mut (JudyL, JudyL)| two.0.try_append(&mut two.1);
    let ((), failed) = refuser.in_turn(&mut two, NoMemory, moved, same_two);
    assert!(failed > 1 && two.1.is_empty() && two.0 == &other | &map);
    // What goes needs no memory.
    let mut less = set.clone();
    let (count, _) = refuser.from(1, || (less.remove_range(..1 << 20), less.retain_range(..)));
    assert_eq!(count, (plain.range(..1 << 20).count(), 0));
    assert!(less.iter().eq(plain.range(1 << 20..).copied()));
    let mut kept = map.clone();
    let (count, _) = refuser.from(1, || kept.retain_range(..1 << 20));
    assert_eq!(count, plain.range(1 << 20..).count());
    assert!(kept.keys().eq(plain.range(..1 << 20).copied()));
}

/// Arrays made of two: each refusal is told and leaves both, and what is made in the end is what the sign makes.
macro_rules! made_of_two_without_memory {
    ($refuser:ident, $error:expr; $($one:expr, $other:expr;)*) => { $(
        let mut two = ($one.clone(), $other.clone());
        made_of_two_without_memory!(
            $refuser, $error, two, $one, $other;
            try_union |, try_intersection &, try_difference -, try_symmetric_difference ^
        );
    )* };
    ($refuser:ident, $error:expr, $two:ident, $one:expr, $other:expr; $($call:ident $sign:tt),*) => { $(
        let (made, failed) = $refuser.in_turn(
            &mut $two,
            $error,
            |two| two.0.$call(&two.1),
            |two| two.0 == $one && two.1 == $other,
        );
        assert!(made == &$one $sign &$other && failed > 0, "{failed}");
        let of_itself = $refuser.in_turn(&mut $two, $error, |two| two.0.$call(&two.0), |two| two.0 == $one);
        assert!(of_itself.0 == &$one $sign &$one);
    )* };
}

#[test]
fn arrays_of_two_without_memory() {
    let refuser = match Refuser::find() {
        Some(refuser) => refuser,
        None => return,
    };
    let sets: [Judy1; 3] = [
        words().collect(),
        words().skip(20).map(|key| key ^ (key & 1)).collect(),
        words().step_by(15).chain([5, 9]).collect(),
    ];
    made_of_two_without_memory!(
        refuser, NoMemory; sets[0], sets[1]; sets[0], sets[2]; sets[2], sets[0];
    );
    let map = |set: &Judy1, n| set.iter().map(|key| (key, key ^ n)).collect::<JudyL>();
    let maps: Vec<JudyL> = (0..3).map(|n| map(&sets[n], n as u64)).collect();
    made_of_two_without_memory!(
        refuser, NoMemory; maps[0], maps[1]; maps[0], maps[2]; maps[2], maps[0];
    );
    let strings: [JudySl; 3] = [
        strings().zip(1..).collect(),
        strings()
            .skip(20)
            .chain([b"own".to_vec()])
            .zip(7..)
            .collect(),
        strings()
            .step_by(15)
            .chain([b"own".to_vec()])
            .zip(9..)
            .collect(),
    ];
    made_of_two_without_memory!(
        refuser, InsertError::NoMemory;
        strings[0], strings[1]; strings[0], strings[2]; strings[2], strings[0];
    );
}

#[test]
fn keys_go_without_memory() {
    let refuser = match Refuser::find() {
        Some(refuser) => refuser,
        None => return,
    };
    let all: JudyL = words().chain(1000..4000).map(|key| (key, key)).collect();
    for stays in [2, 3, 40] {
        let keep = |key: &u64, value: &mut u64| {
            *value += 1;
            *key % 64 < stays
        };
        let mut left = all.clone();
        left.retain(keep);
        assert!(left.len() < all.len() && left.iter().all(|(key, value)| value == key + 1));
        for nth in 1..40 {
            let mut map = all.clone();
            refuser.from(nth, || map.retain(keep));
            assert!(map == left && map.len() == left.iter().count());
        }
    }
}

/// A slot that is made holds no value of such a type before one is put in.
#[test]
fn a_map_of_values_that_are_never_zero_without_memory() {
    let refuser = match Refuser::find() {
        Some(refuser) => refuser,
        None => return,
    };
    let (mut map, mut plain, mut failed) = (JudyL::empty(), BTreeMap::new(), 0);
    for (key, value) in words().map(|word| word as i64).zip(1..) {
        let value = NonZeroU8::new(value % 250 + 1).unwrap();
        let (told, more) = refuser.in_turn(
            &mut map,
            NoMemory,
            |map| match map.entry(key) {
                Entry::Vacant(entry) => entry.try_insert(value).map(|slot| *slot),
                Entry::Occupied(_) => panic!("{key} is a key"),
            },
            |map| {
                map.iter()
                    .eq(plain.iter().map(|(key, value)| (*key, *value)))
            },
        );
        assert_eq!((told, plain.insert(key, value)), (value, None));
        failed += more;
    }
    assert!(failed > 20, "{failed}");
}

/// The same of both maps from strings, which `same` compares with a plain one.
macro_rules! map_without_memory {
    ($map:ty, $same:expr) => {
        let refuser = match Refuser::find() {
            Some(refuser) => refuser,
            None => return,
        };
        let (mut map, mut plain, mut failed) = (<$map>::new(), BTreeMap::new(), 0);
        for (key, value) in strings().zip(1..) {
            let same = |map: &$map| map.len() == plain.len() && $same(map, &plain);
            let (told, more) = refuser.in_turn(
                &mut map,
                InsertError::NoMemory,
                |map| map.try_insert(&key, value),
                same,
            );
            assert_eq!((told, plain.insert(key, value)), (None, None));
            failed += more;
        }
        assert!(failed > 20, "{failed}");
        for (key, value) in &plain {
            assert_eq!(
                refuser
                    .from(1, || (map.try_insert(key, 5), map.remove(key)))
                    .0,
                (Ok(Some(*value)), Some(5))
            );
        }
        assert!(map.is_empty());
    };
}

#[test]
fn a_map_of_strings_without_memory() {
    map_without_memory!(JudySl, |map: &JudySl, plain: &BTreeMap<Vec<u8>, u64>| map
        .iter()
        .eq(plain.clone()));
}

#[test]
fn a_map_of_byte_strings_without_memory() {
    map_without_memory!(JudyHs, |map: &JudyHs, plain: &BTreeMap<Vec<u8>, u64>| {
        strings().all(|key| map.get(&key) == plain.get(&key).copied())
    });
}

/// Arrays that are turned to bytes and made of them: each refusal is told, and the bytes and arrays are those of the
/// plenty.
macro_rules! saved_without_memory {
    ($($type:ty, $array:expr, $least:literal;)*) => { $(
        let refuser = match Refuser::find() {
            Some(refuser) => refuser,
            None => return,
        };
        let mut array: $type = $array;
        let bytes = array.to_bytes().unwrap();
        let (written, _) = refuser.in_turn(
            &mut array,
            DumpFault::NoMemory,
            |array| array.to_bytes(),
            |array| array.to_bytes().as_ref() == Ok(&bytes),
        );
        let (read, failed) = refuser.in_turn(
            &mut array,
            LoadFault::NoMemory,
            |_| <$type>::from_bytes(&bytes),
            |_| true,
        );
        assert!(written == bytes && read == array && failed > $least, "{failed}");
    )* };
}

#[test]
fn bytes_without_memory() {
    saved_without_memory!(
        Judy1, words().collect(), 10;
        JudyL, words().zip(words()).collect(), 10;
        JudyL<u8>, words().map(|word| (word, word as u8)).collect(), 10;
        JudySl, strings().zip(0..).collect(), 10;
        JudyHs, strings().zip(0..).collect(), 10;
        JudyHs<u8>, strings().zip(0..).collect(), 12;
    );
}
