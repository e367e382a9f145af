//! The words of a range, and a way through the keys among them.
use crate::types::Key;
use std::ops::{Bound, RangeBounds};

/// What a search finds: a key, or a key beside its value.
pub trait Found: Copy {
    fn key(self) -> u64;
}

impl Found for u64 {
    fn key(self) -> u64 {
        self
    }
}

impl<V: Copy> Found for (u64, V) {
    fn key(self) -> u64 {
        self.0
    }
}

impl Found for sellumaq_sys::sellumaq_pair {
    #[inline]
    fn key(self) -> u64 {
        self.key
    }
}

/// The ends of no words, as C takes them.
pub const NO_WORDS: (u64, u64) = (1, 0);

/// The words from one to another, both included, whose keys are still to come; none is left of no words.
#[derive(Clone, Debug)]
pub struct Span(Option<(u64, u64)>);

impl Span {
    /// No words.
    pub const NONE: Span = Span(None);

    /// The words of a range of keys. Words that are no keys may be among them.
    pub fn of<K: Key>(range: impl RangeBounds<K>) -> Span {
        let from = match range.start_bound() {
            Bound::Unbounded => Some(0),
            Bound::Included(key) => Some(key.word()),
            Bound::Excluded(key) => key.word().checked_add(1),
        };
        let to = match range.end_bound() {
            Bound::Unbounded => Some(u64::MAX),
            Bound::Included(key) => Some(key.word()),
            Bound::Excluded(key) => key.word().checked_sub(1),
        };
        Span(from.zip(to).filter(|(from, to)| from <= to))
    }

    /// Both ends.
    pub fn ends(&self) -> Option<(u64, u64)> {
        self.0
    }

    /// Leaves the words above one, up to another.
    pub fn go_behind(&mut self, word: u64, to: u64) {
        self.0 = word
            .checked_add(1)
            .filter(|next| *next <= to)
            .map(|next| (next, to));
    }
}
