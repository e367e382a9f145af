//! The calls of the C library libsellumaq, by the names of `sellumaq.h`, which says what each answers and what it asks
//! of its caller. The crate `sellumaq` has safe types over them.
//!
//! The crate carries the library as assembly for x86-64, Linux and glibc, which its build script assembles with a C
//! compiler and links statically. A library that was built before takes its place where `SELLUMAQ_LIB` names the folder
//! of a `libsellumaq.a`, or where `SELLUMAQ_SHARED=1` asks for the shared one that pkg-config finds.
//!
//! A handle of zeros is the array without keys. Calls that only read take the handle as `*const`: they leave it, and
//! all that it leads to, as it is.
#![no_std]
#![allow(non_camel_case_types)]

#[cfg(not(target_pointer_width = "64"))]
compile_error!("libsellumaq is built for machines of 64 bits");

use core::ffi::c_void;

/// The handle of a set of words.
#[repr(C)]
#[derive(Clone, Copy, Debug)]
pub struct sellumaq_judy1 {
    pub array: *mut c_void,
}

/// The handle of a map from words to words.
#[repr(C)]
#[derive(Clone, Copy, Debug)]
pub struct sellumaq_judyl {
    pub array: *mut c_void,
}

/// The handle of a map from strings to words.
#[repr(C)]
#[derive(Clone, Copy, Debug)]
pub struct sellumaq_judysl {
    pub array: *mut c_void,
}

/// The handle of a map from byte strings to words.
#[repr(C)]
#[derive(Clone, Copy, Debug)]
pub struct sellumaq_judyhs {
    pub array: *mut c_void,
}

/// A key with its value.
#[repr(C)]
#[derive(Clone, Copy, Debug)]
pub struct sellumaq_pair {
    pub key: u64,
    pub value: u64,
}

/// What a look-up of many keys tells of one: its value and 1; 0 and 0 where it is absent.
#[repr(C)]
#[derive(Clone, Copy, Debug)]
pub struct sellumaq_found {
    pub value: u64,
    pub there: u64,
}

/// What a walk tells of a key of bytes: how many these are, and its value.
#[repr(C)]
#[derive(Clone, Copy, Debug)]
pub struct sellumaq_entry {
    pub length: usize,
    pub value: u64,
}

/// The key was there.
pub const SELLUMAQ_PRESENT: u32 = 0;
/// The key was absent, and is there now; of `from_sorted`: the array is made.
pub const SELLUMAQ_ADDED: u32 = 1;
/// The key is absent, there is no memory for it, and nothing changed; of `from_sorted`: none for the keys.
pub const SELLUMAQ_NO_MEMORY: u32 = 2;

/// There is no such key.
pub const SELLUMAQ_NONE: u32 = 0;
/// The key is there, and what was asked of it is told.
pub const SELLUMAQ_FOUND: u32 = 1;
/// Of strings and byte strings: the key is absent, and the map holds 4,294,967,295 keys; of `from_sorted`: the keys are
/// more than that.
pub const SELLUMAQ_FULL: u32 = 3;
/// Of strings and byte strings: the bytes are no key; of `from_sorted` also: a key isn't above the one before it.
pub const SELLUMAQ_BAD_KEY: u32 = 4;
/// The key found doesn't fit the caller's buffer.
pub const SELLUMAQ_TOO_SMALL: u32 = 5;

/// Of `copy_range`, `split_off`, `append`, `insert_range`, `flip`, `dump`, `load`, `save` and `open`: it is done.
pub const SELLUMAQ_DONE: u32 = 1;
/// Of `dump`: the name isn't 1 to 32 ASCII letters, digits, `_` and `-`.
pub const SELLUMAQ_BAD_NAME: u32 = 6;
/// Of `dump`: there are more than 4,294,967,295 keys, which no dump can say.
pub const SELLUMAQ_TOO_MANY: u32 = 7;
/// Of `load`: the bytes are no dump of one such array, and `*fault` says why.
pub const SELLUMAQ_BAD_DUMP: u32 = 8;
/// Of `dump`: the format is neither 1 nor 2.
pub const SELLUMAQ_BAD_FORMAT: u32 = 9;
/// Of `save` and `open`: a call of the system failed, and errno says why.
pub const SELLUMAQ_SYSTEM: u32 = 10;

/// The faults of a load, of which `sellumaq_fault_text` tells more.
pub const SELLUMAQ_DUMP_TRUNCATED: u32 = 1;
pub const SELLUMAQ_DUMP_BAD_MAGIC: u32 = 2;
pub const SELLUMAQ_DUMP_TOO_MANY: u32 = 3;
pub const SELLUMAQ_DUMP_BAD_NAME: u32 = 4;
pub const SELLUMAQ_DUMP_SAME_NAME: u32 = 5;
pub const SELLUMAQ_DUMP_BAD_KIND: u32 = 6;
pub const SELLUMAQ_DUMP_BAD_LIMIT: u32 = 7;
pub const SELLUMAQ_DUMP_BAD_COUNT: u32 = 8;
pub const SELLUMAQ_DUMP_BAD_KEY: u32 = 9;
pub const SELLUMAQ_DUMP_BAD_ORDER: u32 = 10;
pub const SELLUMAQ_DUMP_TRAILING: u32 = 11;
pub const SELLUMAQ_DUMP_BAD_PREFIX: u32 = 12;
pub const SELLUMAQ_DUMP_NOT_ONE: u32 = 13;
pub const SELLUMAQ_DUMP_OTHER_KIND: u32 = 14;

/// The most bytes of a key that a dump can say.
pub const SELLUMAQ_SAVED_KEY_BYTES: usize = 1024;

// A set of words.
extern "C" {
    pub fn sellumaq_judy1_set(set: *mut sellumaq_judy1, key: u64) -> u32;
    pub fn sellumaq_judy1_unset(set: *mut sellumaq_judy1, key: u64) -> bool;
    pub fn sellumaq_judy1_test(set: *const sellumaq_judy1, key: u64) -> bool;
    pub fn sellumaq_judy1_test_many(
        set: *const sellumaq_judy1,
        keys: *const u64,
        count: usize,
        there: *mut bool,
        capacity: usize,
    ) -> usize;
    pub fn sellumaq_judy1_first(set: *const sellumaq_judy1, from: u64, key: *mut u64) -> bool;
    pub fn sellumaq_judy1_next(set: *const sellumaq_judy1, from: u64, key: *mut u64) -> bool;
    pub fn sellumaq_judy1_last(set: *const sellumaq_judy1, from: u64, key: *mut u64) -> bool;
    pub fn sellumaq_judy1_prev(set: *const sellumaq_judy1, from: u64, key: *mut u64) -> bool;
    pub fn sellumaq_judy1_first_empty(
        set: *const sellumaq_judy1,
        from: u64,
        word: *mut u64,
    ) -> bool;
    pub fn sellumaq_judy1_next_empty(set: *const sellumaq_judy1, from: u64, word: *mut u64)
        -> bool;
    pub fn sellumaq_judy1_last_empty(set: *const sellumaq_judy1, from: u64, word: *mut u64)
        -> bool;
    pub fn sellumaq_judy1_prev_empty(set: *const sellumaq_judy1, from: u64, word: *mut u64)
        -> bool;
    pub fn sellumaq_judy1_walk(
        set: *const sellumaq_judy1,
        from: u64,
        keys: *mut u64,
        capacity: usize,
    ) -> usize;
    pub fn sellumaq_judy1_walk_down(
        set: *const sellumaq_judy1,
        from: u64,
        keys: *mut u64,
        capacity: usize,
    ) -> usize;
    pub fn sellumaq_judy1_from_sorted(
        set: *mut sellumaq_judy1,
        keys: *const u64,
        count: usize,
        place: *mut usize,
    ) -> u32;
    pub fn sellumaq_judy1_len(set: *const sellumaq_judy1) -> u64;
    pub fn sellumaq_judy1_bytes(set: *const sellumaq_judy1) -> u64;
    pub fn sellumaq_judy1_count(set: *const sellumaq_judy1, from: u64, to: u64) -> u64;
    pub fn sellumaq_judy1_count_empty(set: *const sellumaq_judy1, from: u64, to: u64) -> u64;
    pub fn sellumaq_judy1_remove_range(set: *mut sellumaq_judy1, from: u64, to: u64) -> u64;
    pub fn sellumaq_judy1_copy(made: *mut sellumaq_judy1, set: *const sellumaq_judy1) -> u32;
    pub fn sellumaq_judy1_by_count(set: *const sellumaq_judy1, n: u64, key: *mut u64) -> bool;
    pub fn sellumaq_judy1_union(
        made: *mut sellumaq_judy1,
        one: *const sellumaq_judy1,
        other: *const sellumaq_judy1,
    ) -> u32;
    pub fn sellumaq_judy1_intersection(
        made: *mut sellumaq_judy1,
        one: *const sellumaq_judy1,
        other: *const sellumaq_judy1,
    ) -> u32;
    pub fn sellumaq_judy1_difference(
        made: *mut sellumaq_judy1,
        one: *const sellumaq_judy1,
        other: *const sellumaq_judy1,
    ) -> u32;
    pub fn sellumaq_judy1_symmetric_difference(
        made: *mut sellumaq_judy1,
        one: *const sellumaq_judy1,
        other: *const sellumaq_judy1,
    ) -> u32;
    pub fn sellumaq_judy1_intersection_count(
        one: *const sellumaq_judy1,
        other: *const sellumaq_judy1,
    ) -> u64;
    pub fn sellumaq_judy1_union_count(
        one: *const sellumaq_judy1,
        other: *const sellumaq_judy1,
    ) -> u64;
    pub fn sellumaq_judy1_difference_count(
        one: *const sellumaq_judy1,
        other: *const sellumaq_judy1,
    ) -> u64;
    pub fn sellumaq_judy1_symmetric_difference_count(
        one: *const sellumaq_judy1,
        other: *const sellumaq_judy1,
    ) -> u64;
    pub fn sellumaq_judy1_is_subset(
        one: *const sellumaq_judy1,
        other: *const sellumaq_judy1,
    ) -> bool;
    pub fn sellumaq_judy1_is_disjoint(
        one: *const sellumaq_judy1,
        other: *const sellumaq_judy1,
    ) -> bool;
    pub fn sellumaq_judy1_has_same_keys(
        one: *const sellumaq_judy1,
        other: *const sellumaq_judy1,
    ) -> bool;
    pub fn sellumaq_judy1_copy_range(
        made: *mut sellumaq_judy1,
        set: *const sellumaq_judy1,
        from: u64,
        to: u64,
    ) -> u32;
    pub fn sellumaq_judy1_split_off(
        made: *mut sellumaq_judy1,
        set: *mut sellumaq_judy1,
        at: u64,
    ) -> u32;
    pub fn sellumaq_judy1_append(set: *mut sellumaq_judy1, other: *mut sellumaq_judy1) -> u32;
    pub fn sellumaq_judy1_retain_range(set: *mut sellumaq_judy1, from: u64, to: u64) -> u64;
    pub fn sellumaq_judy1_insert_range(set: *mut sellumaq_judy1, from: u64, to: u64) -> u32;
    pub fn sellumaq_judy1_flip(set: *mut sellumaq_judy1, from: u64, to: u64) -> u32;
    pub fn sellumaq_judy1_from_unsorted(
        set: *mut sellumaq_judy1,
        keys: *const u64,
        count: usize,
    ) -> u32;
    pub fn sellumaq_judy1_free(set: *mut sellumaq_judy1) -> u64;
}

// A map from words to words.
extern "C" {
    pub fn sellumaq_judyl_ins(map: *mut sellumaq_judyl, key: u64, slot: *mut *mut u64) -> bool;
    pub fn sellumaq_judyl_put(map: *mut sellumaq_judyl, key: u64, value: u64) -> u32;
    pub fn sellumaq_judyl_insert(
        map: *mut sellumaq_judyl,
        key: u64,
        value: u64,
        was: *mut u64,
    ) -> u32;
    pub fn sellumaq_judyl_get(map: *const sellumaq_judyl, key: u64, value: *mut u64) -> bool;
    pub fn sellumaq_judyl_get_many(
        map: *const sellumaq_judyl,
        keys: *const u64,
        count: usize,
        found: *mut sellumaq_found,
        capacity: usize,
    ) -> usize;
    pub fn sellumaq_judyl_slot(map: *const sellumaq_judyl, key: u64, slot: *mut *mut u64) -> bool;
    pub fn sellumaq_judyl_del(map: *mut sellumaq_judyl, key: u64) -> bool;
    pub fn sellumaq_judyl_remove(map: *mut sellumaq_judyl, key: u64, was: *mut u64) -> bool;
    pub fn sellumaq_judyl_first(map: *const sellumaq_judyl, from: u64, key: *mut u64) -> bool;
    pub fn sellumaq_judyl_next(map: *const sellumaq_judyl, from: u64, key: *mut u64) -> bool;
    pub fn sellumaq_judyl_last(map: *const sellumaq_judyl, from: u64, key: *mut u64) -> bool;
    pub fn sellumaq_judyl_prev(map: *const sellumaq_judyl, from: u64, key: *mut u64) -> bool;
    pub fn sellumaq_judyl_first_entry(
        map: *const sellumaq_judyl,
        from: u64,
        key: *mut u64,
        value: *mut u64,
    ) -> bool;
    pub fn sellumaq_judyl_next_entry(
        map: *const sellumaq_judyl,
        from: u64,
        key: *mut u64,
        value: *mut u64,
    ) -> bool;
    pub fn sellumaq_judyl_last_entry(
        map: *const sellumaq_judyl,
        from: u64,
        key: *mut u64,
        value: *mut u64,
    ) -> bool;
    pub fn sellumaq_judyl_prev_entry(
        map: *const sellumaq_judyl,
        from: u64,
        key: *mut u64,
        value: *mut u64,
    ) -> bool;
    pub fn sellumaq_judyl_first_slot(
        map: *const sellumaq_judyl,
        from: u64,
        key: *mut u64,
        slot: *mut *mut u64,
    ) -> bool;
    pub fn sellumaq_judyl_next_slot(
        map: *const sellumaq_judyl,
        from: u64,
        key: *mut u64,
        slot: *mut *mut u64,
    ) -> bool;
    pub fn sellumaq_judyl_last_slot(
        map: *const sellumaq_judyl,
        from: u64,
        key: *mut u64,
        slot: *mut *mut u64,
    ) -> bool;
    pub fn sellumaq_judyl_prev_slot(
        map: *const sellumaq_judyl,
        from: u64,
        key: *mut u64,
        slot: *mut *mut u64,
    ) -> bool;
    pub fn sellumaq_judyl_first_empty(
        map: *const sellumaq_judyl,
        from: u64,
        word: *mut u64,
    ) -> bool;
    pub fn sellumaq_judyl_next_empty(map: *const sellumaq_judyl, from: u64, word: *mut u64)
        -> bool;
    pub fn sellumaq_judyl_last_empty(map: *const sellumaq_judyl, from: u64, word: *mut u64)
        -> bool;
    pub fn sellumaq_judyl_prev_empty(map: *const sellumaq_judyl, from: u64, word: *mut u64)
        -> bool;
    pub fn sellumaq_judyl_walk(
        map: *const sellumaq_judyl,
        from: u64,
        pairs: *mut sellumaq_pair,
        capacity: usize,
    ) -> usize;
    pub fn sellumaq_judyl_walk_down(
        map: *const sellumaq_judyl,
        from: u64,
        pairs: *mut sellumaq_pair,
        capacity: usize,
    ) -> usize;
    pub fn sellumaq_judyl_from_sorted(
        map: *mut sellumaq_judyl,
        pairs: *const sellumaq_pair,
        count: usize,
        place: *mut usize,
    ) -> u32;
    pub fn sellumaq_judyl_len(map: *const sellumaq_judyl) -> u64;
    pub fn sellumaq_judyl_bytes(map: *const sellumaq_judyl) -> u64;
    pub fn sellumaq_judyl_count(map: *const sellumaq_judyl, from: u64, to: u64) -> u64;
    pub fn sellumaq_judyl_count_empty(map: *const sellumaq_judyl, from: u64, to: u64) -> u64;
    pub fn sellumaq_judyl_remove_range(map: *mut sellumaq_judyl, from: u64, to: u64) -> u64;
    pub fn sellumaq_judyl_copy(made: *mut sellumaq_judyl, map: *const sellumaq_judyl) -> u32;
    pub fn sellumaq_judyl_by_count(map: *const sellumaq_judyl, n: u64, key: *mut u64) -> bool;
    pub fn sellumaq_judyl_by_count_entry(
        map: *const sellumaq_judyl,
        n: u64,
        key: *mut u64,
        value: *mut u64,
    ) -> bool;
    pub fn sellumaq_judyl_by_count_slot(
        map: *const sellumaq_judyl,
        n: u64,
        key: *mut u64,
        slot: *mut *mut u64,
    ) -> bool;
    pub fn sellumaq_judyl_union(
        made: *mut sellumaq_judyl,
        one: *const sellumaq_judyl,
        other: *const sellumaq_judyl,
    ) -> u32;
    pub fn sellumaq_judyl_intersection(
        made: *mut sellumaq_judyl,
        one: *const sellumaq_judyl,
        other: *const sellumaq_judyl,
    ) -> u32;
    pub fn sellumaq_judyl_difference(
        made: *mut sellumaq_judyl,
        one: *const sellumaq_judyl,
        other: *const sellumaq_judyl,
    ) -> u32;
    pub fn sellumaq_judyl_symmetric_difference(
        made: *mut sellumaq_judyl,
        one: *const sellumaq_judyl,
        other: *const sellumaq_judyl,
    ) -> u32;
    pub fn sellumaq_judyl_intersection_count(
        one: *const sellumaq_judyl,
        other: *const sellumaq_judyl,
    ) -> u64;
    pub fn sellumaq_judyl_union_count(
        one: *const sellumaq_judyl,
        other: *const sellumaq_judyl,
    ) -> u64;
    pub fn sellumaq_judyl_difference_count(
        one: *const sellumaq_judyl,
        other: *const sellumaq_judyl,
    ) -> u64;
    pub fn sellumaq_judyl_symmetric_difference_count(
        one: *const sellumaq_judyl,
        other: *const sellumaq_judyl,
    ) -> u64;
    pub fn sellumaq_judyl_is_subset(
        one: *const sellumaq_judyl,
        other: *const sellumaq_judyl,
    ) -> bool;
    pub fn sellumaq_judyl_is_disjoint(
        one: *const sellumaq_judyl,
        other: *const sellumaq_judyl,
    ) -> bool;
    pub fn sellumaq_judyl_has_same_keys(
        one: *const sellumaq_judyl,
        other: *const sellumaq_judyl,
    ) -> bool;
    pub fn sellumaq_judyl_copy_range(
        made: *mut sellumaq_judyl,
        map: *const sellumaq_judyl,
        from: u64,
        to: u64,
    ) -> u32;
    pub fn sellumaq_judyl_split_off(
        made: *mut sellumaq_judyl,
        map: *mut sellumaq_judyl,
        at: u64,
    ) -> u32;
    pub fn sellumaq_judyl_append(map: *mut sellumaq_judyl, other: *mut sellumaq_judyl) -> u32;
    pub fn sellumaq_judyl_retain_range(map: *mut sellumaq_judyl, from: u64, to: u64) -> u64;
    pub fn sellumaq_judyl_from_unsorted(
        map: *mut sellumaq_judyl,
        pairs: *const sellumaq_pair,
        count: usize,
    ) -> u32;
    pub fn sellumaq_judyl_free(map: *mut sellumaq_judyl) -> u64;
}

// A map from strings to words.
extern "C" {
    pub fn sellumaq_judysl_ins(
        map: *mut sellumaq_judysl,
        key: *const u8,
        length: usize,
        slot: *mut *mut u64,
    ) -> u32;
    pub fn sellumaq_judysl_put(
        map: *mut sellumaq_judysl,
        key: *const u8,
        length: usize,
        value: u64,
    ) -> u32;
    pub fn sellumaq_judysl_insert(
        map: *mut sellumaq_judysl,
        key: *const u8,
        length: usize,
        value: u64,
        was: *mut u64,
    ) -> u32;
    pub fn sellumaq_judysl_get(
        map: *const sellumaq_judysl,
        key: *const u8,
        length: usize,
        value: *mut u64,
    ) -> bool;
    pub fn sellumaq_judysl_slot(
        map: *const sellumaq_judysl,
        key: *const u8,
        length: usize,
        slot: *mut *mut u64,
    ) -> bool;
    pub fn sellumaq_judysl_del(map: *mut sellumaq_judysl, key: *const u8, length: usize) -> bool;
    pub fn sellumaq_judysl_remove(
        map: *mut sellumaq_judysl,
        key: *const u8,
        length: usize,
        was: *mut u64,
    ) -> bool;
    pub fn sellumaq_judysl_first(
        map: *const sellumaq_judysl,
        buffer: *mut u8,
        capacity: usize,
        length: *mut usize,
        value: *mut u64,
    ) -> u32;
    pub fn sellumaq_judysl_next(
        map: *const sellumaq_judysl,
        buffer: *mut u8,
        capacity: usize,
        length: *mut usize,
        value: *mut u64,
    ) -> u32;
    pub fn sellumaq_judysl_last(
        map: *const sellumaq_judysl,
        buffer: *mut u8,
        capacity: usize,
        length: *mut usize,
        value: *mut u64,
    ) -> u32;
    pub fn sellumaq_judysl_prev(
        map: *const sellumaq_judysl,
        buffer: *mut u8,
        capacity: usize,
        length: *mut usize,
        value: *mut u64,
    ) -> u32;
    pub fn sellumaq_judysl_first_slot(
        map: *const sellumaq_judysl,
        buffer: *mut u8,
        capacity: usize,
        length: *mut usize,
        slot: *mut *mut u64,
    ) -> u32;
    pub fn sellumaq_judysl_next_slot(
        map: *const sellumaq_judysl,
        buffer: *mut u8,
        capacity: usize,
        length: *mut usize,
        slot: *mut *mut u64,
    ) -> u32;
    pub fn sellumaq_judysl_last_slot(
        map: *const sellumaq_judysl,
        buffer: *mut u8,
        capacity: usize,
        length: *mut usize,
        slot: *mut *mut u64,
    ) -> u32;
    pub fn sellumaq_judysl_prev_slot(
        map: *const sellumaq_judysl,
        buffer: *mut u8,
        capacity: usize,
        length: *mut usize,
        slot: *mut *mut u64,
    ) -> u32;
    pub fn sellumaq_judysl_count(
        map: *const sellumaq_judysl,
        from: *const u8,
        from_length: usize,
        to: *const u8,
        to_length: usize,
    ) -> u64;
    pub fn sellumaq_judysl_by_count(
        map: *const sellumaq_judysl,
        n: u64,
        buffer: *mut u8,
        capacity: usize,
        length: *mut usize,
        value: *mut u64,
    ) -> u32;
    pub fn sellumaq_judysl_walk(
        map: *const sellumaq_judysl,
        from: *const u8,
        length: usize,
        itself: bool,
        bytes: *mut u8,
        room: usize,
        entries: *mut sellumaq_entry,
        capacity: usize,
    ) -> usize;
    pub fn sellumaq_judysl_from_sorted(
        map: *mut sellumaq_judysl,
        bytes: *const u8,
        room: usize,
        entries: *const sellumaq_entry,
        count: usize,
        place: *mut usize,
    ) -> u32;
    pub fn sellumaq_judysl_len(map: *const sellumaq_judysl) -> u64;
    pub fn sellumaq_judysl_bytes(map: *const sellumaq_judysl) -> u64;
    pub fn sellumaq_judysl_longest(map: *const sellumaq_judysl) -> usize;
    pub fn sellumaq_judysl_union(
        made: *mut sellumaq_judysl,
        one: *const sellumaq_judysl,
        other: *const sellumaq_judysl,
    ) -> u32;
    pub fn sellumaq_judysl_intersection(
        made: *mut sellumaq_judysl,
        one: *const sellumaq_judysl,
        other: *const sellumaq_judysl,
    ) -> u32;
    pub fn sellumaq_judysl_difference(
        made: *mut sellumaq_judysl,
        one: *const sellumaq_judysl,
        other: *const sellumaq_judysl,
    ) -> u32;
    pub fn sellumaq_judysl_symmetric_difference(
        made: *mut sellumaq_judysl,
        one: *const sellumaq_judysl,
        other: *const sellumaq_judysl,
    ) -> u32;
    pub fn sellumaq_judysl_union_count(
        one: *const sellumaq_judysl,
        other: *const sellumaq_judysl,
    ) -> u64;
    pub fn sellumaq_judysl_intersection_count(
        one: *const sellumaq_judysl,
        other: *const sellumaq_judysl,
    ) -> u64;
    pub fn sellumaq_judysl_difference_count(
        one: *const sellumaq_judysl,
        other: *const sellumaq_judysl,
    ) -> u64;
    pub fn sellumaq_judysl_symmetric_difference_count(
        one: *const sellumaq_judysl,
        other: *const sellumaq_judysl,
    ) -> u64;
    pub fn sellumaq_judysl_is_subset(
        one: *const sellumaq_judysl,
        other: *const sellumaq_judysl,
    ) -> bool;
    pub fn sellumaq_judysl_is_disjoint(
        one: *const sellumaq_judysl,
        other: *const sellumaq_judysl,
    ) -> bool;
    pub fn sellumaq_judysl_has_same_keys(
        one: *const sellumaq_judysl,
        other: *const sellumaq_judysl,
    ) -> bool;
    pub fn sellumaq_judysl_longest_prefix(
        map: *const sellumaq_judysl,
        bytes: *const u8,
        length: usize,
        prefix: *mut usize,
        value: *mut u64,
    ) -> bool;
    pub fn sellumaq_judysl_remove_range(
        map: *mut sellumaq_judysl,
        from: *const u8,
        from_length: usize,
        to: *const u8,
        to_length: usize,
    ) -> u64;
    pub fn sellumaq_judysl_remove_prefix(
        map: *mut sellumaq_judysl,
        prefix: *const u8,
        length: usize,
    ) -> u64;
    pub fn sellumaq_judysl_shrink(map: *mut sellumaq_judysl);
    pub fn sellumaq_judysl_copy(made: *mut sellumaq_judysl, map: *const sellumaq_judysl) -> u32;
    pub fn sellumaq_judysl_free(map: *mut sellumaq_judysl) -> u64;
}

// A map from byte strings to words.
extern "C" {
    pub fn sellumaq_judyhs_ins(
        map: *mut sellumaq_judyhs,
        key: *const u8,
        length: usize,
        slot: *mut *mut u64,
    ) -> u32;
    pub fn sellumaq_judyhs_put(
        map: *mut sellumaq_judyhs,
        key: *const u8,
        length: usize,
        value: u64,
    ) -> u32;
    pub fn sellumaq_judyhs_insert(
        map: *mut sellumaq_judyhs,
        key: *const u8,
        length: usize,
        value: u64,
        was: *mut u64,
    ) -> u32;
    pub fn sellumaq_judyhs_get(
        map: *const sellumaq_judyhs,
        key: *const u8,
        length: usize,
        value: *mut u64,
    ) -> bool;
    pub fn sellumaq_judyhs_slot(
        map: *const sellumaq_judyhs,
        key: *const u8,
        length: usize,
        slot: *mut *mut u64,
    ) -> bool;
    pub fn sellumaq_judyhs_del(map: *mut sellumaq_judyhs, key: *const u8, length: usize) -> bool;
    pub fn sellumaq_judyhs_remove(
        map: *mut sellumaq_judyhs,
        key: *const u8,
        length: usize,
        was: *mut u64,
    ) -> bool;
    pub fn sellumaq_judyhs_walk(
        map: *const sellumaq_judyhs,
        behind: usize,
        bytes: *mut u8,
        room: usize,
        entries: *mut sellumaq_entry,
        capacity: usize,
        count: *mut usize,
    ) -> bool;
    pub fn sellumaq_judyhs_len(map: *const sellumaq_judyhs) -> u64;
    pub fn sellumaq_judyhs_bytes(map: *const sellumaq_judyhs) -> u64;
    pub fn sellumaq_judyhs_shrink(map: *mut sellumaq_judyhs);
    pub fn sellumaq_judyhs_free(map: *mut sellumaq_judyhs) -> u64;
}

// One array as bytes, and in a file. A path ends with a zero byte, as C's do.
extern "C" {
    pub fn sellumaq_judy1_dump(
        set: *const sellumaq_judy1,
        format: u32,
        name: *const u8,
        length: usize,
        bytes: *mut u8,
        room: usize,
        size: *mut usize,
    ) -> u32;
    pub fn sellumaq_judy1_dump_size(
        set: *const sellumaq_judy1,
        format: u32,
        name: *const u8,
        length: usize,
        size: *mut usize,
    ) -> u32;
    pub fn sellumaq_judy1_load(
        set: *mut sellumaq_judy1,
        bytes: *const u8,
        count: usize,
        fault: *mut u32,
    ) -> u32;
    pub fn sellumaq_judy1_save(set: *const sellumaq_judy1, path: *const i8) -> u32;
    pub fn sellumaq_judy1_open(set: *mut sellumaq_judy1, path: *const i8, fault: *mut u32) -> u32;
    pub fn sellumaq_judyl_dump(
        map: *const sellumaq_judyl,
        format: u32,
        name: *const u8,
        length: usize,
        bytes: *mut u8,
        room: usize,
        size: *mut usize,
    ) -> u32;
    pub fn sellumaq_judyl_dump_size(
        map: *const sellumaq_judyl,
        format: u32,
        name: *const u8,
        length: usize,
        size: *mut usize,
    ) -> u32;
    pub fn sellumaq_judyl_load(
        map: *mut sellumaq_judyl,
        bytes: *const u8,
        count: usize,
        fault: *mut u32,
    ) -> u32;
    pub fn sellumaq_judyl_save(map: *const sellumaq_judyl, path: *const i8) -> u32;
    pub fn sellumaq_judyl_open(map: *mut sellumaq_judyl, path: *const i8, fault: *mut u32) -> u32;
    pub fn sellumaq_judysl_dump(
        map: *const sellumaq_judysl,
        format: u32,
        name: *const u8,
        length: usize,
        bytes: *mut u8,
        room: usize,
        size: *mut usize,
    ) -> u32;
    pub fn sellumaq_judysl_dump_size(
        map: *const sellumaq_judysl,
        format: u32,
        name: *const u8,
        length: usize,
        size: *mut usize,
    ) -> u32;
    pub fn sellumaq_judysl_load(
        map: *mut sellumaq_judysl,
        bytes: *const u8,
        count: usize,
        fault: *mut u32,
    ) -> u32;
    pub fn sellumaq_judysl_save(map: *const sellumaq_judysl, path: *const i8) -> u32;
    pub fn sellumaq_judysl_open(map: *mut sellumaq_judysl, path: *const i8, fault: *mut u32)
        -> u32;
    pub fn sellumaq_judyhs_dump(
        map: *const sellumaq_judyhs,
        format: u32,
        name: *const u8,
        length: usize,
        bytes: *mut u8,
        room: usize,
        size: *mut usize,
    ) -> u32;
    pub fn sellumaq_judyhs_dump_size(
        map: *const sellumaq_judyhs,
        format: u32,
        name: *const u8,
        length: usize,
        size: *mut usize,
    ) -> u32;
    pub fn sellumaq_judyhs_load(
        map: *mut sellumaq_judyhs,
        bytes: *const u8,
        count: usize,
        fault: *mut u32,
    ) -> u32;
    pub fn sellumaq_judyhs_save(map: *const sellumaq_judyhs, path: *const i8) -> u32;
    pub fn sellumaq_judyhs_open(map: *mut sellumaq_judyhs, path: *const i8, fault: *mut u32)
        -> u32;
    pub fn sellumaq_fault_text(fault: u32) -> *const i8;
}
