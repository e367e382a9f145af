//! The way of an iterator through the words of a range from both ends, which are brought many at a time.
use crate::span::{Found, Span};
use sellumaq_sys::sellumaq_pair;
use std::mem::MaybeUninit;

/// How many keys a call of C brings at most. An iterator has a place for each.
const MOST: usize = 128;

/// How many keys without a gap are asked for at once, at most.
const LONGEST_RUN: u64 = 1 << 16;

/// What the library tells of a key, and what an iterator answers for it.
pub trait Told: Found {
    type Item;

    fn item(self) -> Self::Item;

    fn of(item: Self::Item) -> Self;

    /// What is told of a key by the key alone; of a map nothing is.
    fn of_key(key: u64) -> Option<Self>;
}

impl Told for u64 {
    type Item = u64;

    #[inline]
    fn item(self) -> u64 {
        self
    }

    fn of(key: u64) -> u64 {
        key
    }

    #[inline]
    fn of_key(key: u64) -> Option<u64> {
        Some(key)
    }
}

impl Told for sellumaq_pair {
    type Item = (u64, u64);

    #[inline]
    fn item(self) -> (u64, u64) {
        (self.key, self.value)
    }

    fn of((key, value): (u64, u64)) -> sellumaq_pair {
        sellumaq_pair { key, value }
    }

    #[inline]
    fn of_key(_: u64) -> Option<sellumaq_pair> {
        None
    }
}

/// The room that keys are told in.
pub type Room<T> = [MaybeUninit<T>];

/// An array of words, as its iterators ask it.
pub trait Walked {
    type Told: Told;

    /// Writes the keys from one word up to another to the beginning of some room, in ascending order, as many as there
    /// is room for, and answers how many these are. Keys above these words may come behind them.
    fn walk(&self, from: u64, to: u64, room: &mut Room<Self::Told>) -> usize;

    /// The same in descending order. Keys below these words may come behind them.
    fn walk_down(&self, from: u64, to: u64, room: &mut Room<Self::Told>) -> usize;

    /// How many keys there are from one word up to another.
    fn count_between(&self, from: u64, to: u64) -> u64;
}

/// What is still to come of a range: the keys that were brought, in the order in which they come. They lie below the
/// words left where the way goes up, and above them where it goes down. In a set they may be a run of keys without a
/// gap, which a count tells, and so none is brought.
#[derive(Clone)]
pub struct Way<T: Told> {
    words: Span,
    brought: [MaybeUninit<T>; MOST],
    begin: usize,
    end: usize,
    // The key at the place 0 of a run.
    run: Option<u64>,
    // How many keys of a run are asked for next; 0 where the last keys had a gap.
    longest: u64,
    goes_down: bool,
    // How many keys the next call brings: one at first, for a way that is soon left.
    room: usize,
}

impl<T: Told> Way<T> {
    pub fn of(words: Span) -> Way<T> {
        Way {
            words,
            brought: [MaybeUninit::uninit(); MOST],
            begin: 0,
            end: 0,
            run: None,
            longest: 0,
            goes_down: false,
            room: 1,
        }
    }

    #[inline]
    pub fn next(&mut self, array: &impl Walked<Told = T>) -> Option<T::Item> {
        if (self.goes_down || self.begin == self.end) && !self.bring(array, false) {
            return None;
        }
        let told = self.told(self.begin);
        self.begin += 1;
        Some(told.item())
    }

    #[inline]
    pub fn next_back(&mut self, array: &impl Walked<Told = T>) -> Option<T::Item> {
        if (!self.goes_down || self.begin == self.end) && !self.bring(array, true) {
            return None;
        }
        let told = self.told(self.begin);
        self.begin += 1;
        Some(told.item())
    }

    /// Hands on to an act, by ascending key, all that is still to come. What was brought is gone through in one loop.
    #[inline]
    pub fn fold<B>(
        mut self,
        array: &impl Walked<Told = T>,
        start: B,
        mut act: impl FnMut(B, T::Item) -> B,
    ) -> B {
        let mut done = start;
        while !self.goes_down && self.begin < self.end || self.bring(array, false) {
            done = (self.begin..self.end).fold(done, |done, at| act(done, self.told(at).item()));
            self.begin = self.end;
        }
        done
    }

    /// The same by descending key.
    #[inline]
    pub fn rfold<B>(
        mut self,
        array: &impl Walked<Told = T>,
        start: B,
        mut act: impl FnMut(B, T::Item) -> B,
    ) -> B {
        let mut done = start;
        while self.goes_down && self.begin < self.end || self.bring(array, true) {
            done = (self.begin..self.end).fold(done, |done, at| act(done, self.told(at).item()));
            self.begin = self.end;
        }
        done
    }

    // The words that are still to come, those of the keys that were brought with them.
    fn left(&self) -> Span {
        if self.begin == self.end {
            return self.words.clone();
        }
        let (one, other) = (self.told(self.begin).key(), self.told(self.end - 1).key());
        let (least, greatest) = (one.min(other), one.max(other));
        let (from, to) = self.words.ends().unwrap_or((least, greatest));
        Span::of(from.min(least)..=to.max(greatest))
    }

    #[inline]
    fn told(&self, at: usize) -> T {
        debug_assert!(self.begin <= at && at < self.end);
        if let Some(told) = self
            .run
            .and_then(|first| T::of_key(self.step(first, at as u64)))
        {
            return told;
        }
        // SAFETY: `at` is from `begin` to `end`, between which a call of `walk` or `walk_down` wrote.
        unsafe { self.brought[at].assume_init() }
    }

    // The word that comes so many behind another.
    #[inline]
    fn step(&self, word: u64, by: u64) -> u64 {
        if self.goes_down {
            word - by
        } else {
            word + by
        }
    }

    // Turns the way round where it goes the other one.
    fn turn(&mut self, goes_down: bool) {
        if self.goes_down != goes_down {
            self.words = self.left();
            (self.begin, self.end, self.run, self.longest) = (0, 0, None, 0);
            (self.goes_down, self.room) = (goes_down, 1);
        }
    }

    // Makes the next call bring more.
    fn widen(&mut self) -> usize {
        let room = self.room;
        self.room = (room * 8).min(MOST);
        room
    }

    // Brings the next keys left, the greatest where the way goes down, and else the least; false where there are none.
    #[inline(never)]
    fn bring(&mut self, array: &impl Walked<Told = T>, goes_down: bool) -> bool {
        self.turn(goes_down);
        let (from, to) = match self.words.ends() {
            Some(ends) => ends,
            None => return false,
        };
        if self.take_run(array, from, to) {
            return true;
        }
        let room = self.widen();
        let brought = &mut self.brought[..room];
        let count = if goes_down {
            array.walk_down(from, to, brought)
        } else {
            array.walk(from, to, brought)
        };
        (self.begin, self.end) = (0, count);
        self.look_for_gaps(count);
        while self.end > 0 && !(from..=to).contains(&self.told(self.end - 1).key()) {
            self.end -= 1;
        }
        if self.end == room {
            self.go_behind(self.told(room - 1).key(), from, to);
        } else {
            self.words = Span::NONE;
        }
        self.end > 0
    }

    // Leaves the words from one up to another that come behind a key.
    fn go_behind(&mut self, key: u64, from: u64, to: u64) {
        if self.goes_down {
            self.words = Span::of(from..key);
        } else {
            self.words.go_behind(key, to);
        }
    }

    // Where a whole buffer of keys has no gap, the next words are asked for as a run.
    fn look_for_gaps(&mut self, count: usize) {
        if count < MOST {
            return;
        }
        let (first, last) = (self.told(0).key(), self.told(MOST - 1).key());
        if first.abs_diff(last) == MOST as u64 - 1 {
            self.longest = MOST as u64;
        }
    }

    // Takes the next words for a run where all of them are keys: twice as many at each time.
    fn take_run(&mut self, array: &impl Walked<Told = T>, from: u64, to: u64) -> bool {
        self.run = None;
        if self.longest == 0 || T::of_key(from).is_none() {
            return false;
        }
        let (first, last) = if self.goes_down {
            (to, from.max(to.saturating_sub(self.longest - 1)))
        } else {
            (from, to.min(from.saturating_add(self.longest - 1)))
        };
        let count = first.abs_diff(last) + 1;
        if array.count_between(first.min(last), first.max(last)) != count {
            self.longest = 0;
            return false;
        }
        (self.begin, self.end, self.run) = (0, count as usize, Some(first));
        self.longest = (self.longest * 2).min(LONGEST_RUN);
        self.go_behind(last, from, to);
        true
    }
}
