//! The pairs of a map without order, as a list that was told at once.
use crate::{no_room, NoMemory};
use sellumaq_sys as sys;
use std::fmt;
use std::ops::Range;

/// How many bytes of keys are asked for at least, and for each key: more than most keys have, since each call of C
/// sorts all keys anew. The system gives pages to what is written alone.
const LEAST_ROOM: usize = 1024;
const ROOM: usize = 64;

/// Pairs by the lengths of their keys, and those of one length by their bytes: those that are still to come, from both
/// ends.
#[derive(Clone)]
pub struct List {
    // The keys, one behind the other, and where those to come begin and end.
    bytes: Vec<u8>,
    keys: Range<usize>,
    // The lengths of all keys with their values, and the places of those to come.
    entries: Vec<sys::sellumaq_entry>,
    places: Range<usize>,
}

impl List {
    /// All pairs of a map, of which there are so many. It ends the program where there is no memory for the list, as
    /// std's collections do.
    ///
    /// # Safety
    ///
    /// The handle is an array's that isn't changed meanwhile.
    pub unsafe fn of(handle: sys::sellumaq_judyhs, count: usize) -> List {
        // SAFETY: as the caller says.
        unsafe { List::try_of(handle, count) }.unwrap_or_else(no_room)
    }

    /// The same, or an error where there is no memory for the list.
    ///
    /// # Safety
    ///
    /// As of `of`.
    pub unsafe fn try_of(handle: sys::sellumaq_judyhs, count: usize) -> Result<List, NoMemory> {
        let mut list = List {
            bytes: Vec::new(),
            keys: 0..0,
            entries: Vec::new(),
            places: 0..count,
        };
        let mut room = LEAST_ROOM.max(count.saturating_mul(ROOM));
        list.entries
            .try_reserve_exact(count)
            .map_err(|_| NoMemory)?;
        while list.entries.len() < count {
            list.bytes.try_reserve_exact(room).map_err(|_| NoMemory)?;
            // SAFETY: as the caller says.
            unsafe { list.go_on(&handle) }?;
            // the keys that are left are longer than these
            let longest = list.entries.last().map_or(0, |entry| entry.length);
            let left = count - list.entries.len();
            room = (room * 2).max(left.saturating_mul(2 * longest));
        }
        list.keys = 0..list.bytes.len();
        Ok(list)
    }

    // Takes the pairs behind those that it has, as many as there is room for: none where the next key has more bytes
    // than that.
    //
    // SAFETY: as of `of`.
    unsafe fn go_on(&mut self, handle: &sys::sellumaq_judyhs) -> Result<(), NoMemory> {
        let (behind, mut count) = (self.entries.len(), 0);
        let bytes = self.bytes.spare_capacity_mut();
        let entries = self.entries.spare_capacity_mut();
        let (room, capacity) = (bytes.len(), entries.len());
        let (to, told) = (bytes.as_mut_ptr().cast(), entries.as_mut_ptr().cast());
        // SAFETY: the handle is as the caller says, and the call only reads it; both buffers have the room that they
        // are said to have, and belong to this list alone.
        if !unsafe {
            sys::sellumaq_judyhs_walk(handle, behind, to, room, told, capacity, &mut count)
        } {
            return Err(NoMemory);
        }
        // SAFETY: the call wrote so many entries.
        unsafe { self.entries.set_len(behind + count) };
        let written: usize = self.entries[behind..].iter().map(|it| it.length).sum();
        // SAFETY: it wrote as many bytes as their keys have.
        unsafe { self.bytes.set_len(self.bytes.len() + written) };
        Ok(())
    }

    /// How many pairs are still to come.
    pub fn left(&self) -> usize {
        self.places.len()
    }

    pub fn next(&mut self) -> Option<(&[u8], u64)> {
        let entry = self.entries[self.places.next()?];
        let begin = self.keys.start;
        self.keys.start += entry.length;
        Some((&self.bytes[begin..self.keys.start], entry.value))
    }

    pub fn next_back(&mut self) -> Option<(&[u8], u64)> {
        let entry = self.entries[self.places.next_back()?];
        let end = self.keys.end;
        self.keys.end -= entry.length;
        Some((&self.bytes[self.keys.end..end], entry.value))
    }
}

/// Shows the keys as text, bytes that are no ASCII text as `\x` and two digits.
impl fmt::Debug for List {
    fn fmt(&self, to: &mut fmt::Formatter<'_>) -> fmt::Result {
        let (mut shown, mut rest) = (to.debug_map(), self.clone());
        while let Some((key, value)) = rest.next() {
            shown.entry(&format_args!("\"{}\"", key.escape_ascii()), &value);
        }
        shown.finish()
    }
}
