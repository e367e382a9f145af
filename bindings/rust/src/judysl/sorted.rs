//! Maps from strings that are made at once, of strings that ascend.
use super::{JudySl, Range};
use crate::types::Value;
use crate::{no_room, FromSortedError, NoMemory};
use sellumaq_sys as sys;

/// Strings one behind the other, with the length and the value of each.
#[derive(Default)]
struct List {
    bytes: Vec<u8>,
    entries: Vec<sys::sellumaq_entry>,
}

impl List {
    fn push(&mut self, string: &[u8], value: u64) {
        let length = string.len();
        self.bytes.extend_from_slice(string);
        self.entries.push(sys::sellumaq_entry { length, value });
    }

    /// Why the string at a place makes no map.
    fn fault(&self, place: usize) -> FromSortedError {
        let lengths = self.entries.iter().map(|entry| entry.length);
        let begin: usize = lengths.take(place).sum();
        if self.bytes[begin..begin + self.entries[place].length].contains(&0) {
            FromSortedError::BadKey(place)
        } else {
            FromSortedError::NotAscending(place)
        }
    }

    /// The map of these strings. It ends the program where there is no memory.
    fn at_once<V: Value>(&self) -> Result<JudySl<V>, FromSortedError> {
        let (mut map, mut place) = (JudySl::empty(), 0);
        let (bytes, room) = (self.bytes.as_ptr(), self.bytes.len());
        let (entries, count) = (self.entries.as_ptr(), self.entries.len());
        // SAFETY: the handle is this map's, lent for this call alone, and the place this function's; both lists are as
        // long as is told.
        let answer = unsafe {
            let handle = &mut map.handle;
            sys::sellumaq_judysl_from_sorted(handle, bytes, room, entries, count, &mut place)
        };
        match answer {
            sys::SELLUMAQ_ADDED => Ok(map),
            sys::SELLUMAQ_NO_MEMORY => no_room(NoMemory),
            sys::SELLUMAQ_FULL => Err(FromSortedError::Full),
            _ => Err(self.fault(place)),
        }
    }
}

impl<V: Value> JudySl<V> {
    /// Makes a map at once of strings that strictly ascend, which are copied to one list first. It ends the program
    /// where there is no memory, as std's collections do.
    ///
    /// # Errors
    ///
    /// [`FromSortedError`] tells the first key that is none, or isn't above the one before it.
    ///
    /// ```
    /// use sellumaq::{FromSortedError, JudySl};
    ///
    /// let map = JudySl::from_sorted([("a", 10), ("ab", 20), ("b", 30)]);
    /// assert_eq!(map.map(|map| map.len()), Ok(3));
    /// let falling = JudySl::from_sorted([("b", 10), ("a", 20)]);
    /// assert_eq!(falling, Err(FromSortedError::NotAscending(1)));
    /// ```
    pub fn from_sorted<K: AsRef<[u8]>, I: IntoIterator<Item = (K, V)>>(
        items: I,
    ) -> Result<Self, FromSortedError> {
        let mut list = List::default();
        for (key, value) in items {
            list.push(key.as_ref(), value.bits());
        }
        list.at_once()
    }
}

impl<V: Value> Range<'_, V> {
    /// A map of what is still to come.
    pub(super) fn at_once(mut self) -> JudySl<V> {
        let mut list = List::default();
        while let Some((key, value)) = self.next_entry() {
            list.push(key, value.bits());
        }
        let made = list.at_once();
        made.expect("keys of a map ascend")
    }
}
