//! The ends of a walk through strings.
use crate::search::{nth, Search, SHORT};
use sellumaq_sys as sys;
use std::ops::{Bound, RangeBounds};
use std::ops::{Range, RangeFrom, RangeFull, RangeInclusive, RangeTo, RangeToInclusive};

/// A range of strings, whose ends are anything that has bytes: `..`, `"a"..`, `.."b"`, `"a"..="b"` and so on, or a pair
/// of [`Bound`]s.
///
/// ```
/// let map = sellumaq::JudySl::from([("a", 10), ("b", 20), ("c", 30)]);
/// assert_eq!((map.count("b"..), map.count("a"..="b"), map.count(..)), (2, 2, 3));
/// ```
pub trait StringRange {
    /// Where it begins and ends.
    ///
    /// ```
    /// use sellumaq::judysl::StringRange;
    /// use std::ops::Bound::{Included, Unbounded};
    ///
    /// assert_eq!(StringRange::bounds(&("a"..)), (Included(&b"a"[..]), Unbounded));
    /// ```
    fn bounds(&self) -> (Bound<&[u8]>, Bound<&[u8]>);
}

impl StringRange for RangeFull {
    fn bounds(&self) -> (Bound<&[u8]>, Bound<&[u8]>) {
        (Bound::Unbounded, Bound::Unbounded)
    }
}

macro_rules! string_ranges {
    ($($range:ty),*) => { $(
        impl<K: AsRef<[u8]>> StringRange for $range {
            fn bounds(&self) -> (Bound<&[u8]>, Bound<&[u8]>) {
                (bytes(RangeBounds::<K>::start_bound(self)), bytes(RangeBounds::<K>::end_bound(self)))
            }
        }
    )* };
}

string_ranges!(
    Range<K>,
    RangeFrom<K>,
    RangeTo<K>,
    RangeInclusive<K>,
    RangeToInclusive<K>,
    (Bound<K>, Bound<K>)
);

fn bytes<K: AsRef<[u8]>>(bound: Bound<&K>) -> Bound<&[u8]> {
    match bound {
        Bound::Unbounded => Bound::Unbounded,
        Bound::Included(key) => Bound::Included(key.as_ref()),
        Bound::Excluded(key) => Bound::Excluded(key.as_ref()),
    }
}

/// No short key lies above this string.
const GREATEST: &[u8] = &[u8::MAX; SHORT];

/// One end of the strings whose keys are still to come, and whether it is one of them.
#[derive(Clone)]
pub struct Edge {
    // None lies above all strings, however long they are.
    string: Option<Vec<u8>>,
    included: bool,
}

impl Edge {
    fn at(string: &[u8], included: bool) -> Edge {
        Edge {
            string: Some(string.to_vec()),
            included,
        }
    }

    /// The lower end of a range.
    pub fn lower(bound: Bound<&[u8]>) -> Edge {
        match bound {
            Bound::Unbounded => Edge::at(b"", true),
            Bound::Excluded(string) => Edge::at(could_be_key(string).0, false),
            Bound::Included(string) => {
                let (key, whole) = could_be_key(string);
                Edge::at(key, whole)
            }
        }
    }

    /// The upper end of a range.
    pub fn upper(bound: Bound<&[u8]>) -> Edge {
        match bound {
            Bound::Unbounded => Edge {
                string: None,
                included: true,
            },
            Bound::Included(string) => Edge::at(could_be_key(string).0, true),
            Bound::Excluded(string) => {
                let (key, whole) = could_be_key(string);
                Edge::at(key, !whole)
            }
        }
    }

    /// The upper end of the strings that lie before the lower end of a range.
    pub fn before(bound: Bound<&[u8]>) -> Edge {
        Edge::upper(match bound {
            Bound::Unbounded => Bound::Excluded(b""),
            Bound::Included(string) => Bound::Excluded(string),
            Bound::Excluded(string) => Bound::Included(string),
        })
    }

    /// Moves to a key, which isn't still to come then.
    pub fn go_behind(&mut self, key: &[u8]) {
        let string = self.string.get_or_insert_with(Vec::new);
        string.clear();
        string.extend_from_slice(key);
        self.included = false;
    }

    /// The edge's string; none lies above all strings.
    pub fn string(&self) -> Option<&[u8]> {
        self.string.as_deref()
    }

    /// Whether the edge's own string is still to come.
    pub fn is_included(&self) -> bool {
        self.included
    }

    /// The next key, by a search that begins with the edge's string and one that begins behind it, which tell of the
    /// key found. From above all strings both go down.
    ///
    /// # Safety
    ///
    /// The handle is an array's that isn't changed meanwhile, and both are scans of `sellumaq_sys`.
    pub unsafe fn find<T>(
        &self,
        handle: sys::sellumaq_judysl,
        [from, past]: &[Search<T>; 2],
        told: &mut T,
    ) -> Option<Vec<u8>> {
        let search = if self.included { from } else { past };
        match self.string() {
            // SAFETY: as the caller says.
            Some(string) => unsafe { search.find(handle, string, told) },
            // SAFETY: as the caller says.
            None => unsafe { find_greatest(handle, from, told) },
        }
    }

    /// Whether a key lies above this edge, or is it.
    pub fn lets_above(&self, key: &[u8]) -> bool {
        self.string()
            .map_or(false, |end| key > end || self.included && key == end)
    }

    /// Whether a key lies below this edge, or is it.
    pub fn lets_below(&self, key: &[u8]) -> bool {
        self.string()
            .map_or(true, |end| key < end || self.included && key == end)
    }
}

// The greatest key, by a search down. It begins at a string above all keys, which has as many bytes as the longest key;
// where these are many it begins at the key itself, that at the last place.
//
// SAFETY: as of `Edge::find`.
unsafe fn find_greatest<T>(
    handle: sys::sellumaq_judysl,
    down: &Search<T>,
    told: &mut T,
) -> Option<Vec<u8>> {
    // SAFETY: as the caller says.
    let longest = unsafe { sys::sellumaq_judysl_longest(&handle) };
    if longest <= SHORT {
        // SAFETY: as the caller says.
        return unsafe { down.find(handle, &GREATEST[..longest], told) };
    }
    // SAFETY: as the caller says.
    let (greatest, _) = unsafe { nth(handle, sys::sellumaq_judysl_len(&handle)) }?;
    // SAFETY: as the caller says.
    unsafe { down.find(handle, &greatest, told) }
}

// The longest beginning of a string that can be a key, and whether it is the whole string. Where it isn't, the string
// goes on with a zero byte, so no key lies between the two.
fn could_be_key(string: &[u8]) -> (&[u8], bool) {
    let end = string.iter().take_while(|byte| **byte != 0).count();
    (&string[..end], end == string.len())
}
