// Rust's BTreeSet, BTreeMap and HashMap behind calls of C, to be measured beside the arrays.
use std::collections::{BTreeMap, BTreeSet, HashMap};
use std::ops::Bound::{Excluded, Included, Unbounded};
use std::slice::{from_raw_parts, from_raw_parts_mut};

type Set = BTreeSet<u64>;
type Map = BTreeMap<u64, u64>;

#[no_mangle]
pub extern "C" fn btree_set_new() -> *mut Set {
    Box::into_raw(Box::default())
}

#[no_mangle]
pub unsafe extern "C" fn btree_set_free(set: *mut Set) {
    drop(Box::from_raw(set));
}

#[no_mangle]
pub unsafe extern "C" fn btree_set_insert(set: *mut Set, key: u64) {
    (*set).insert(key);
}

#[no_mangle]
pub unsafe extern "C" fn btree_set_has(set: *const Set, key: u64) -> bool {
    (*set).contains(&key)
}

#[no_mangle]
pub unsafe extern "C" fn btree_set_next(set: *const Set, from: u64, key: *mut u64) -> bool {
    let found = (*set).range((Excluded(from), Unbounded)).next();
    found.map(|it| *key = *it).is_some()
}

#[no_mangle]
pub unsafe extern "C" fn btree_set_remove(set: *mut Set, key: u64) {
    (*set).remove(&key);
}

// Sets of two sets, a range that goes, parts, and copies.

fn boxed(set: Set) -> *mut Set {
    Box::into_raw(Box::new(set))
}

#[no_mangle]
pub unsafe extern "C" fn btree_set_of(keys: *const u64, count: usize) -> *mut Set {
    boxed(from_raw_parts(keys, count).iter().copied().collect())
}

#[no_mangle]
pub unsafe extern "C" fn btree_set_copy(set: *const Set) -> *mut Set {
    boxed((*set).clone())
}

#[no_mangle]
pub unsafe extern "C" fn btree_set_len(set: *const Set) -> u64 {
    (*set).len() as u64
}

#[no_mangle]
pub unsafe extern "C" fn btree_set_common(one: *const Set, other: *const Set) -> u64 {
    (*one).intersection(&*other).count() as u64
}

#[no_mangle]
pub unsafe extern "C" fn btree_set_union(one: *const Set, other: *const Set) -> *mut Set {
    boxed(&*one | &*other)
}

#[no_mangle]
pub unsafe extern "C" fn btree_set_intersection(one: *const Set, other: *const Set) -> *mut Set {
    boxed(&*one & &*other)
}

#[no_mangle]
pub unsafe extern "C" fn btree_set_difference(one: *const Set, other: *const Set) -> *mut Set {
    boxed(&*one - &*other)
}

#[no_mangle]
pub unsafe extern "C" fn btree_set_symmetric_difference(one: *const Set, other: *const Set) -> *mut Set {
    boxed(&*one ^ &*other)
}

#[no_mangle]
pub unsafe extern "C" fn btree_set_remove_range(set: *mut Set, from: u64, to: u64) {
    let mut inside = (*set).split_off(&from);
    if let Some(behind) = to.checked_add(1) {
        (*set).append(&mut inside.split_off(&behind));
    }
}

#[no_mangle]
pub unsafe extern "C" fn btree_set_split_off(set: *mut Set, at: u64) -> *mut Set {
    boxed((*set).split_off(&at))
}

#[no_mangle]
pub unsafe extern "C" fn btree_map_of(keys: *const u64, count: usize) -> *mut Map {
    let pairs = from_raw_parts(keys, count).iter().copied().zip(0..);
    Box::into_raw(Box::new(pairs.collect()))
}

#[no_mangle]
pub unsafe extern "C" fn btree_map_copy(map: *const Map) -> *mut Map {
    Box::into_raw(Box::new((*map).clone()))
}

#[no_mangle]
pub extern "C" fn btree_map_new() -> *mut Map {
    Box::into_raw(Box::default())
}

#[no_mangle]
pub unsafe extern "C" fn btree_map_free(map: *mut Map) {
    drop(Box::from_raw(map));
}

#[no_mangle]
pub unsafe extern "C" fn btree_map_insert(map: *mut Map, key: u64, value: u64) {
    (*map).insert(key, value);
}

#[no_mangle]
pub unsafe extern "C" fn btree_map_value(map: *const Map, key: u64) -> u64 {
    (*map).get(&key).copied().unwrap_or(0)
}

#[no_mangle]
pub unsafe extern "C" fn btree_map_next(map: *const Map, from: u64, key: *mut u64, value: *mut u64) -> bool {
    let found = (*map).range((Excluded(from), Unbounded)).next();
    found.map(|it| (*key, *value) = (*it.0, *it.1)).is_some()
}

#[no_mangle]
pub unsafe extern "C" fn btree_map_remove(map: *mut Map, key: u64) {
    (*map).remove(&key);
}

macro_rules! text_map {
    ($map:ty, $new:ident, $free:ident, $insert:ident, $value:ident, $remove:ident) => {
        #[no_mangle]
        pub extern "C" fn $new() -> *mut $map {
            Box::into_raw(Box::default())
        }

        #[no_mangle]
        pub unsafe extern "C" fn $free(map: *mut $map) {
            drop(Box::from_raw(map));
        }

        #[no_mangle]
        pub unsafe extern "C" fn $insert(map: *mut $map, key: *const u8, length: usize, value: u64) {
            (*map).insert(from_raw_parts(key, length).to_vec(), value);
        }

        #[no_mangle]
        pub unsafe extern "C" fn $value(map: *const $map, key: *const u8, length: usize) -> u64 {
            (*map).get(from_raw_parts(key, length)).copied().unwrap_or(0)
        }

        #[no_mangle]
        pub unsafe extern "C" fn $remove(map: *mut $map, key: *const u8, length: usize) {
            (*map).remove(from_raw_parts(key, length));
        }
    };
}

type Ordered = BTreeMap<Vec<u8>, u64>;
type Hashed = HashMap<Vec<u8>, u64>;

text_map!(Ordered, btree_text_new, btree_text_free, btree_text_insert, btree_text_value, btree_text_remove);
text_map!(Hashed, hash_text_new, hash_text_free, hash_text_insert, hash_text_value, hash_text_remove);

#[no_mangle]
pub unsafe extern "C" fn btree_text_next(map: *const Ordered, key: *mut u8, length: *mut usize) -> bool {
    let from = from_raw_parts(key, *length);
    let Some((found, _)) = (*map).range::<[u8], _>((Excluded(from), Unbounded)).next() else {
        return false;
    };
    from_raw_parts_mut(key, found.len()).copy_from_slice(found);
    *length = found.len();
    true
}

#[no_mangle]
pub unsafe extern "C" fn btree_text_len(map: *const Ordered) -> u64 {
    (*map).len() as u64
}

#[no_mangle]
pub unsafe extern "C" fn btree_text_count(map: *const Ordered, from: *const u8, from_length: usize, to: *const u8, to_length: usize) -> u64 {
    let ends = (Included(from_raw_parts(from, from_length)), Included(from_raw_parts(to, to_length)));
    (*map).range::<[u8], _>(ends).count() as u64
}

// A byte of the n-th key, counted from 1, which is there.
#[no_mangle]
pub unsafe extern "C" fn btree_text_nth(map: *const Ordered, n: u64) -> u64 {
    let found = (*map).keys().nth(n as usize - 1);
    found.and_then(|key| key.first()).map_or(0, |byte| u64::from(*byte))
}
