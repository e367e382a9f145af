//! The ways of iterators through a map from strings, from both ends of a range.
use super::{JudySl, StringRange};
use crate::edge::Edge;
use crate::search::{Search, SHORT, SPARE};
use crate::types::Value;
use sellumaq_sys as sys;
use std::iter::from_fn;
use std::ops::Range;
use std::ptr::{null_mut, NonNull};

pub const UP: [Search<u64>; 2] = [
    Search::of(sys::sellumaq_judysl_first, sys::sellumaq_judysl_first),
    Search::of(sys::sellumaq_judysl_next, sys::sellumaq_judysl_next),
];
pub const DOWN: [Search<u64>; 2] = [
    Search::of(sys::sellumaq_judysl_last, sys::sellumaq_judysl_last),
    Search::of(sys::sellumaq_judysl_prev, sys::sellumaq_judysl_prev),
];
pub const UP_TO_SLOTS: [Search<*mut u64>; 2] = [
    Search::of(sys::sellumaq_judysl_first_slot, sys::sellumaq_judysl_first),
    Search::of(sys::sellumaq_judysl_next_slot, sys::sellumaq_judysl_next),
];
pub const DOWN_TO_SLOTS: [Search<*mut u64>; 2] = [
    Search::of(sys::sellumaq_judysl_last_slot, sys::sellumaq_judysl_last),
    Search::of(sys::sellumaq_judysl_prev_slot, sys::sellumaq_judysl_prev),
];

/// How many keys a page has at most, and for how many bytes there is room, but where one key has more.
const MOST: usize = 64;
const ROOM: usize = 4 * SHORT;

/// A way of which each step is one way down the map.
#[derive(Clone)]
pub struct Steps {
    front: Edge,
    back: Edge,
}

impl Steps {
    pub fn of(range: &impl StringRange) -> Steps {
        let (from, to) = range.bounds();
        Steps {
            front: Edge::lower(from),
            back: Edge::upper(to),
        }
    }

    // Goes a step up, and answers the key where one is left, of which the searches tell.
    fn up<V: Value, T>(
        &mut self,
        map: &JudySl<V>,
        searches: &[Search<T>; 2],
        told: &mut T,
    ) -> Option<Vec<u8>> {
        // SAFETY: the map is borrowed, and the searches are this kind's.
        let key = unsafe { self.front.find(map.handle, searches, told) }?;
        self.front.go_behind(&key);
        self.back.lets_below(&key).then_some(key)
    }

    // The same down.
    fn down<V: Value, T>(
        &mut self,
        map: &JudySl<V>,
        searches: &[Search<T>; 2],
        told: &mut T,
    ) -> Option<Vec<u8>> {
        // SAFETY: as in `up`.
        let key = unsafe { self.back.find(map.handle, searches, told) }?;
        self.back.go_behind(&key);
        self.front.lets_above(&key).then_some(key)
    }

    pub fn next<V: Value>(&mut self, map: &JudySl<V>) -> Option<(Vec<u8>, u64)> {
        let mut value = 0;
        self.up(map, &UP, &mut value).map(|key| (key, value))
    }

    pub fn next_back<V: Value>(&mut self, map: &JudySl<V>) -> Option<(Vec<u8>, u64)> {
        let mut value = 0;
        self.down(map, &DOWN, &mut value).map(|key| (key, value))
    }

    /// The next key with its slot, where the search ends.
    pub fn next_slot<V: Value>(&mut self, map: &JudySl<V>) -> Option<(Vec<u8>, NonNull<V>)> {
        let mut slot = null_mut();
        let key = self.up(map, &UP_TO_SLOTS, &mut slot)?;
        Some((key, NonNull::new(slot.cast())?))
    }

    pub fn next_back_slot<V: Value>(&mut self, map: &JudySl<V>) -> Option<(Vec<u8>, NonNull<V>)> {
        let mut slot = null_mut();
        let key = self.down(map, &DOWN_TO_SLOTS, &mut slot)?;
        Some((key, NonNull::new(slot.cast())?))
    }
}

/// The same way from slot to slot. It knows how many keys are left, and so asks for none beyond the last one: the
/// library would read that key's value, which may be lent already.
#[derive(Clone)]
pub struct SlotSteps {
    steps: Steps,
    left: usize,
}

impl SlotSteps {
    pub fn of<V: Value>(map: &JudySl<V>, range: &impl StringRange) -> SlotSteps {
        SlotSteps {
            steps: Steps::of(range),
            left: map.count_within(range),
        }
    }

    pub fn next<V: Value>(&mut self, map: &JudySl<V>) -> Option<(Vec<u8>, NonNull<V>)> {
        self.left = self.left.checked_sub(1)?;
        self.steps.next_slot(map)
    }

    pub fn next_back<V: Value>(&mut self, map: &JudySl<V>) -> Option<(Vec<u8>, NonNull<V>)> {
        self.left = self.left.checked_sub(1)?;
        self.steps.next_back_slot(map)
    }
}

/// Pairs that were brought: the keys one behind the other, from which they are given from one end.
#[derive(Clone)]
struct Page {
    bytes: Vec<u8>,
    entries: Vec<sys::sellumaq_entry>,
    // How many pairs were given.
    given: usize,
    // Where the key given last stands.
    key: Range<usize>,
    // How many pairs are brought next: one at first, for a way that is soon left.
    most: usize,
}

impl Page {
    const EMPTY: Page = Page {
        bytes: Vec::new(),
        entries: Vec::new(),
        given: 0,
        key: 0..0,
        most: 1,
    };

    // The key that was given last.
    fn last(&self) -> Option<&[u8]> {
        (self.given > 0).then(|| &self.bytes[self.key.clone()])
    }

    fn is_given(&self) -> bool {
        self.given == self.entries.len()
    }

    // Gives the next pair, where one is left.
    fn next(&mut self) -> (&[u8], u64) {
        let entry = self.entries[self.given];
        self.given += 1;
        self.key = self.key.end..self.key.end + entry.length;
        (&self.bytes[self.key.clone()], entry.value)
    }

    // Gives the last pair that wasn't given, where all are given from the upper end.
    fn next_back(&mut self) -> (&[u8], u64) {
        self.given += 1;
        let entry = self.entries[self.entries.len() - self.given];
        self.key = self.key.start - entry.length..self.key.start;
        (&self.bytes[self.key.clone()], entry.value)
    }

    // Holds one pair that isn't given yet, for the upper end.
    fn hold(&mut self, key: &[u8], value: u64) {
        let length = key.len();
        self.bytes.extend_from_slice(key);
        self.entries.push(sys::sellumaq_entry { length, value });
        self.key = length..length;
    }

    // Forgets its pairs, and tells how many are to be brought.
    fn turn(&mut self) -> usize {
        let most = self.most;
        self.bytes.clear();
        self.entries.clear();
        (self.given, self.key) = (0, 0..0);
        self.most = (most * 8).min(MOST);
        most
    }

    // Brings pairs of a map from a string on behind those that are there, up to so many, and answers whether there are
    // any more.
    fn fill<V: Value>(&mut self, map: &JudySl<V>, from: &[u8], itself: bool, up_to: usize) -> bool {
        if map.longest_key_len() > SHORT {
            return self.step(map, from, itself, up_to);
        }
        self.bytes.reserve(if up_to == 1 { SHORT } else { ROOM });
        let (handle, begin, had) = (map.handle, self.bytes.len(), self.entries.len());
        self.entries.reserve(up_to - had);
        let bytes = self.bytes.spare_capacity_mut();
        let (to, room) = (bytes.as_mut_ptr().cast(), bytes.len());
        let entries = self.entries.spare_capacity_mut().as_mut_ptr().cast();
        let (start, length) = (from.as_ptr(), from.len());
        // SAFETY: the map is borrowed, and the call only reads it; the string is a slice's, and both buffers have the
        // room that they are said to have, and belong to this page alone.
        let count = unsafe {
            sys::sellumaq_judysl_walk(
                &handle,
                start,
                length,
                itself,
                to,
                room,
                entries,
                up_to - had,
            )
        };
        // SAFETY: the call wrote so many entries.
        unsafe { self.entries.set_len(had + count) };
        let written: usize = self.entries[had..].iter().map(|it| it.length).sum();
        // SAFETY: it wrote as many bytes as their keys have.
        unsafe { self.bytes.set_len(begin + written) };
        count > 0
    }

    // The same by a search for each key, where a long one was put in: there the library's walk takes more ways down the
    // map for each, and a search one where there is room for any key.
    fn step<V: Value>(&mut self, map: &JudySl<V>, from: &[u8], itself: bool, up_to: usize) -> bool {
        let (begin, had) = (self.bytes.len(), self.entries.len());
        let (mut place, mut search) = (begin, &UP[usize::from(!itself)]);
        let spare = map.longest_key_len().min(SPARE);
        let room = if up_to == 1 { SHORT } else { ROOM + spare };
        self.bytes.reserve(room);
        self.bytes.extend_from_slice(from);
        let mut value = 0;
        // SAFETY: the map is borrowed, and the search is this kind's. It begins at the string given, or at a key that
        // stands behind itself once more.
        while unsafe { search.replace(map.handle, &mut self.bytes, place, &mut value) } {
            let length = self.bytes.len() - place;
            self.entries.push(sys::sellumaq_entry { length, value });
            if self.entries.len() == up_to || self.bytes.len() - begin >= ROOM {
                break;
            }
            self.bytes.extend_from_within(place..);
            (place, search) = (place + length, &UP[1]);
        }
        self.entries.len() > had
    }

    // Brings so many pairs of a map, from a key of it on.
    fn fill_whole<V: Value>(&mut self, map: &JudySl<V>, mut from: Vec<u8>, count: usize) {
        let mut itself = true;
        while self.entries.len() < count && self.fill(map, &from, itself, count) {
            let length = self.entries.last().map_or(0, |entry| entry.length);
            from.clear();
            from.extend_from_slice(&self.bytes[self.bytes.len() - length..]);
            itself = false;
        }
        self.key = self.bytes.len()..self.bytes.len();
    }
}

/// A way that brings many pairs a call of C, from both ends. An end of the way is the one that its last page was
/// brought from.
#[derive(Clone)]
pub struct Way {
    ends: Steps,
    page: Page,
    back: Page,
    // How many keys lie below the last page that was brought from the upper end, where one was.
    below: Option<usize>,
}

impl Way {
    pub fn of(range: &impl StringRange) -> Way {
        Way {
            ends: Steps::of(range),
            page: Page::EMPTY,
            back: Page::EMPTY,
            below: None,
        }
    }

    // Brings the next pairs; false where none is left.
    fn bring<V: Value>(&mut self, map: &JudySl<V>) -> bool {
        if let Some(key) = self.page.last() {
            self.ends.front.go_behind(key);
        }
        let (most, front) = (self.page.turn(), &self.ends.front);
        match front.string() {
            Some(from) => self.page.fill(map, from, front.is_included(), most),
            None => false,
        }
    }

    // Brings the greatest pairs that are left: one by a search, for a way that is soon left, and then those at some
    // places up to the one before; by searches alone where a long key was put in. False where none is left.
    fn bring_back<V: Value>(&mut self, map: &JudySl<V>) -> bool {
        if self.back.most == 1 || map.longest_key_len() > SHORT {
            self.back.turn();
            return self.ends.next_back(map).map_or(false, |(key, value)| {
                self.back.hold(&key, value);
                true
            });
        }
        let below = self
            .below
            .unwrap_or_else(|| map.count_up_to(&self.ends.back));
        let count = self.back.most.min(below);
        if count == 0 {
            return false;
        }
        if let Some((key, _)) = map.nth(below - count) {
            self.back.turn();
            self.back.fill_whole(map, key, count);
        }
        self.below = Some(below - count);
        true
    }

    pub fn next_entry<V: Value>(&mut self, map: &JudySl<V>) -> Option<(&[u8], u64)> {
        if self.page.is_given() && !self.bring(map) {
            return None;
        }
        let (key, value) = self.page.next();
        let is_left = match self.back.last() {
            Some(given) => key < given,
            None => self.ends.back.lets_below(key),
        };
        is_left.then_some((key, value))
    }

    pub fn next_back_entry<V: Value>(&mut self, map: &JudySl<V>) -> Option<(&[u8], u64)> {
        if self.back.is_given() && !self.bring_back(map) {
            return None;
        }
        let (key, value) = self.back.next_back();
        let is_left = match self.page.last() {
            Some(given) => key > given,
            None => self.ends.front.lets_above(key),
        };
        is_left.then_some((key, value))
    }

    pub fn next<V: Value>(&mut self, map: &JudySl<V>) -> Option<(Vec<u8>, u64)> {
        self.next_entry(map)
            .map(|(key, value)| (key.to_vec(), value))
    }

    pub fn next_back<V: Value>(&mut self, map: &JudySl<V>) -> Option<(Vec<u8>, u64)> {
        self.next_back_entry(map)
            .map(|(key, value)| (key.to_vec(), value))
    }

    pub fn fold<V: Value, B>(
        mut self,
        map: &JudySl<V>,
        start: B,
        act: impl FnMut(B, (Vec<u8>, u64)) -> B,
    ) -> B {
        from_fn(|| self.next(map)).fold(start, act)
    }

    pub fn rfold<V: Value, B>(
        mut self,
        map: &JudySl<V>,
        start: B,
        act: impl FnMut(B, (Vec<u8>, u64)) -> B,
    ) -> B {
        from_fn(|| self.next_back(map)).fold(start, act)
    }
}
