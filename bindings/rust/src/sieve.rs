//! What is taken out of an array of words while a way goes through it.
use crate::span::{Found, Span};
use crate::types::Key;
use crate::way::{Told, Walked, Way};
use std::iter::Peekable;
use std::ops::RangeBounds;

/// A key that is taken out takes the time in which about so many are made an array at once, and a node of that the time
/// of `NODE` keys.
const DELETE: usize = 16;
const NODE: usize = 10;

/// After so many keys it is asked whether those that stay are to be listed.
const FIRST: usize = 64;

/// An array of words from which keys are taken.
pub trait Sifted: Walked + Sized {
    fn take_out(&mut self, key: u64);

    /// An array of what ascends; none where there is no memory.
    fn of_list(told: &[Self::Told]) -> Option<Self>;
}

/// What stays of the keys from one on, up to the last that was looked at; all are in the array still, and so many are
/// to go.
struct List<T> {
    from: u64,
    stay: Vec<T>,
    go: usize,
}

/// A way through a range of an array, of which each key is said to stay or to go. Those that go are taken out one by
/// one; where they are many, those that stay are listed, and an array is made of the list when the sieve is dropped.
pub struct Sieve<'a, A: Sifted> {
    array: &'a mut A,
    way: Way<A::Told>,
    // The last key that was looked at, how many stayed and went, and how many stand in other 256 words than the one
    // before.
    last: Option<u64>,
    stayed: usize,
    went: usize,
    blocks: usize,
    list: Option<List<A::Told>>,
}

impl<'a, A: Sifted> Sieve<'a, A> {
    pub fn of<K: Key>(array: &'a mut A, range: impl RangeBounds<K>) -> Self {
        Sieve {
            array,
            way: Way::of(Span::of(range)),
            last: None,
            stayed: 0,
            went: 0,
            blocks: 0,
            list: None,
        }
    }

    pub fn array(&mut self) -> &mut A {
        self.array
    }

    // What was brought beyond a key is there still when the key was taken out.
    #[inline]
    pub fn next(&mut self) -> Option<<A::Told as Told>::Item> {
        self.way.next(&*self.array)
    }

    fn look_at(&mut self, key: u64) {
        self.blocks += usize::from(self.last.map_or(true, |last| last >> 8 != key >> 8));
        self.last = Some(key);
    }

    #[inline]
    pub fn stays(&mut self, told: A::Told) {
        self.look_at(told.key());
        self.stayed += 1;
        if let Some(list) = &mut self.list {
            if list.stay.try_reserve(1).is_ok() {
                list.stay.push(told);
            } else {
                self.last = self.last.and_then(|key| key.checked_sub(1));
                self.settle();
                self.last = Some(told.key());
            }
        }
    }

    #[inline]
    pub fn goes(&mut self, key: u64) {
        self.look_at(key);
        self.went += 1;
        match &mut self.list {
            Some(list) => list.go += 1,
            None => self.goes_at_once(key),
        }
    }

    fn goes_at_once(&mut self, key: u64) {
        self.array.take_out(key);
        let seen = self.stayed + self.went;
        if seen >= FIRST && DELETE * self.went > self.stayed + NODE * self.blocks {
            self.list = key.checked_add(1).map(|from| List {
                from,
                stay: Vec::new(),
                go: 0,
            });
        }
    }

    // Takes out what is to go of the keys that are listed.
    fn settle(&mut self) {
        if let (Some(list), Some(last)) = (self.list.take(), self.last) {
            let made = if list.go * DELETE < self.array.count_between(0, u64::MAX) as usize {
                None
            } else {
                self.made_of(&list, last)
            };
            match made {
                Some(made) => *self.array = made,
                None => self.take_out_each(list, last),
            }
        }
    }

    fn made_of(&self, list: &List<A::Told>, end: u64) -> Option<A> {
        let mut all = Vec::new();
        let add = |all: &mut Vec<A::Told>, range: Span| {
            let mut way = Way::of(range);
            while let Some(item) = way.next(&*self.array) {
                all.try_reserve(1).ok()?;
                all.push(Told::of(item));
            }
            Some(())
        };
        add(&mut all, Span::of(..list.from))?;
        all.try_reserve(list.stay.len()).ok()?;
        all.extend_from_slice(&list.stay);
        if let Some(behind) = end.checked_add(1) {
            add(&mut all, Span::of(behind..))?;
        }
        A::of_list(&all)
    }

    fn take_out_each(&mut self, list: List<A::Told>, end: u64) {
        let mut stay = list.stay.into_iter().peekable();
        let mut way = Way::of(Span::of(list.from..=end));
        while let Some(item) = way.next(&*self.array) {
            let key = A::Told::of(item).key();
            if Peekable::next_if(&mut stay, |told| told.key() == key).is_none() {
                self.array.take_out(key);
            }
        }
    }
}

impl<A: Sifted> Drop for Sieve<'_, A> {
    fn drop(&mut self) {
        self.settle();
    }
}
