//! Judy arrays: sets and maps of 64-bit words, strings and byte strings, kept by libsellumaq, whose every call is
//! proved to answer as a plain finite set or map does.
//!
//! [`Judy1`] is a set of words and [`JudyL`] a map from words to words, with the methods of std's `BTreeSet<u64>` and
//! `BTreeMap<u64, u64>`. Both hold their keys in order, count how many lie between two words, find the n-th, and
//! find the nearest word that is no key. [`JudySl`] is an ordered map from strings to words, and [`JudyHs`] one from
//! byte strings, which has no order.
//!
//! Keys and values are words, so they are answered themselves where std answers references. A word to be looked up
//! may be given either way.
//!
//! ```
//! use sellumaq::JudyL;
//!
//! let squares: JudyL = (1..=5).map(|n| (n * n, n)).collect();
//! assert_eq!(squares.get(16), Some(4));
//! assert_eq!(squares.get(&16), Some(4));
//! assert_eq!(squares[25], 5);
//! assert!(squares.range(10..).eq([(16, 4), (25, 5)]));
//! ```
//!
//! [`Judy1<K>`](Judy1) and [`JudyL<V, K>`](JudyL) have keys of any integer type, in their own order, and the maps have
//! values of any type that fits a word: see [`Key`] and [`Value`]. `new` and `from` make arrays of `u64`, so that
//! numbers without a type are words; those of other types are made by `collect`, `from_sorted`, `default` or `empty`.
//!
//! ```
//! use sellumaq::JudyL;
//!
//! let letters: JudyL<char, i32> = [(1, 'b'), (-1, 'a')].into_iter().collect();
//! assert!(letters.iter().eq([(-1, 'a'), (1, 'b')]));
//! ```
//!
//! Arrays may be sent to other threads and be read by several at a time, which is read off the library's code and
//! tested, and no part of its proofs. An insert without memory ends the program by `handle_alloc_error`; `try_insert`
//! answers an error.
//!
//! Arrays are saved to files and loaded, and turned to bytes and back, as C, Python and the program judystore read them
//! too.
//!
//! ```
//! use sellumaq::JudyL;
//!
//! let bytes = JudyL::from([(4, 2), (9, 3)]).to_bytes()?;
//! assert_eq!(<JudyL>::from_bytes(bytes)?[9], 3);
//! # Ok::<(), Box<dyn std::error::Error>>(())
//! ```
//!
//! With the feature `serde` arrays have Serde's two traits: a set is a sequence, a map is a map, and strings are bytes.
#![warn(missing_docs, clippy::undocumented_unsafe_blocks, clippy::pedantic)]
#![deny(unsafe_op_in_unsafe_fn)]
// A count of the library fits, since the machine has 64 bits.
#![allow(clippy::cast_possible_truncation)]
// A range is given by value, as to std's calls; entries and sets that are split off may be left as std's may.
#![allow(clippy::needless_pass_by_value, clippy::return_self_not_must_use)]
// Keys of words are handed on by the same macros as those of strings, which are lent.
#![allow(clippy::trivially_copy_pass_by_ref)]

mod array;
mod edge;
mod entry;
pub mod judy1;
pub mod judyhs;
pub mod judyl;
pub mod judysl;
mod keyed;
mod list;
mod ordered;
mod saved;
mod search;
#[cfg(feature = "serde")]
mod serial;
mod sieve;
mod slots;
mod sorted;
mod span;
mod two;
mod types;
mod walk;
mod way;
mod words;

use std::alloc::{handle_alloc_error, Layout};

pub use judy1::Judy1;
pub use judyhs::JudyHs;
pub use judyl::JudyL;
pub use judysl::JudySl;
pub use keyed::{InsertError, MAX_SAVED_KEY};
pub use saved::{DumpFault, LoadError, LoadFault, SaveError};
pub use sorted::{FromSortedError, NotAscending};
pub use types::{Key, Value, ZeroValue};

/// There was no memory for a new key; the array is as it was.
///
/// ```
/// assert_eq!(sellumaq::NoMemory.to_string(), "no memory for a new key");
/// ```
#[derive(Clone, Copy, PartialEq, Eq, Debug)]
pub struct NoMemory;

impl std::fmt::Display for NoMemory {
    fn fmt(&self, to: &mut std::fmt::Formatter<'_>) -> std::fmt::Result {
        to.write_str("no memory for a new key")
    }
}

impl std::error::Error for NoMemory {}

impl NoMemory {
    /// Why no array of words is made: no memory holds more keys than it may have.
    fn of(_: InsertError) -> NoMemory {
        NoMemory
    }
}

/// Ends the program for want of memory, as std's collections do.
fn no_room<T>(_: NoMemory) -> T {
    handle_alloc_error(Layout::new::<u64>())
}
