//! Arrays that are made at once, of keys that ascend.
use std::fmt;

/// A key isn't above the one before it: its place among the keys, counted from 0.
///
/// ```
/// use sellumaq::{Judy1, NotAscending};
///
/// assert_eq!(Judy1::from_sorted([1, 5, 5]).err(), Some(NotAscending(2)));
/// assert_eq!(NotAscending(2).to_string(), "the key at place 2 isn't above the one before it");
/// ```
#[derive(Clone, Copy, PartialEq, Eq, Debug)]
pub struct NotAscending(pub usize);

impl fmt::Display for NotAscending {
    fn fmt(&self, to: &mut fmt::Formatter<'_>) -> fmt::Result {
        let place = self.0;
        write!(to, "the key at place {place} isn't above the one before it")
    }
}

impl std::error::Error for NotAscending {}

/// Why no map was made of strings at once. A place is that of a key among the keys, counted from 0.
///
/// ```
/// use sellumaq::{FromSortedError, JudySl};
///
/// let told = JudySl::from_sorted([("a", 1), ("b\0", 2)]);
/// assert_eq!(told, Err(FromSortedError::BadKey(1)));
/// assert_eq!(told.unwrap_err().to_string(), "the bytes at place 1 are no key");
/// ```
#[derive(Clone, Copy, PartialEq, Eq, Debug)]
pub enum FromSortedError {
    /// The bytes at this place are no key: one of them is zero.
    BadKey(usize),
    /// The key at this place isn't above the one before it.
    NotAscending(usize),
    /// There are more than 4,294,967,295 keys.
    Full,
}

impl fmt::Display for FromSortedError {
    fn fmt(&self, to: &mut fmt::Formatter<'_>) -> fmt::Result {
        match self {
            FromSortedError::BadKey(place) => write!(to, "the bytes at place {place} are no key"),
            FromSortedError::NotAscending(place) => NotAscending(*place).fmt(to),
            FromSortedError::Full => to.write_str("more than 4,294,967,295 keys"),
        }
    }
}

impl std::error::Error for FromSortedError {}

/// Writes how an array of words is made of many items at once, by the calls `$from_sorted` and `$from_unsorted` over a
/// list of `$told`.
macro_rules! at_once {
    (
        $array:ident<$($param:ident: $bound:path),+>; $item:ty; $told:ty, $from_sorted:ident, $from_unsorted:ident;
        $sample:literal, $wrong:literal, $unsorted:literal
    ) => {
        impl<$($param: $bound),+> $array<$($param),+> {
            /// The array of a list; of one that doesn't ascend the place is told.
            fn try_at_once(told: &[$told], place: &mut usize) -> Result<Self, crate::InsertError> {
                let (keys, count) = (told.as_ptr(), told.len());
                // SAFETY: the handle is a new array's, lent for this call alone, and the place the caller's; the list
                // is as long as is told.
                Self::made_by(|made| unsafe {
                    sellumaq_sys::$from_sorted(made, keys, count, place)
                })
            }

            fn at_once(told: &[$told]) -> Result<Self, crate::NotAscending> {
                let mut place = 0;
                match Self::try_at_once(told, &mut place) {
                    Err(crate::InsertError::NoMemory) => crate::no_room(crate::NoMemory),
                    made => made.map_err(|_| crate::NotAscending(place)),
                }
            }

            /// Makes an array of keys that strictly ascend, in a part of the time of an insert for each. It ends the
            /// program where there is no memory, as std's collections do.
            ///
            /// # Errors
            ///
            /// [`NotAscending`](crate::NotAscending) tells the first key that isn't above the one before it.
            ///
            /// ```
            #[doc = $sample]
            /// assert_eq!(array.map(|array| array.len()), Ok(3));
            #[doc = $wrong]
            /// ```
            pub fn from_sorted<I: IntoIterator<Item = $item>>(
                items: I,
            ) -> Result<Self, crate::NotAscending> {
                Self::at_once(&Self::list(items))
            }

            /// Makes an array of items in any order, of which the last with a key is kept; `collect` does the same.
            /// They are sorted first, where they don't ascend, which takes a part of the time of an insert for each. It
            /// ends the program where there is no memory.
            ///
            /// ```
            #[doc = $unsorted]
            /// assert_eq!(array.len(), 2);
            /// ```
            pub fn from_unsorted<I: IntoIterator<Item = $item>>(items: I) -> Self {
                let told = Self::list(items);
                Self::at_once(&told).unwrap_or_else(|_| Self::sorted_first(&told))
            }

            fn sorted_first(told: &[$told]) -> Self {
                let (items, count) = (told.as_ptr(), told.len());
                // SAFETY: the handle is a new array's, lent for this call alone, and the list is as long as is told.
                let made = Self::made_by(|made| unsafe {
                    sellumaq_sys::$from_unsorted(made, items, count)
                });
                made.unwrap_or_else(crate::InsertError::end)
            }

            fn list(items: impl IntoIterator<Item = $item>) -> Vec<$told> {
                let told = items.into_iter().map(Self::told);
                told.map(crate::way::Told::of).collect()
            }

            /// The array of the keys that another with many more lacks, each of which is looked up.
            fn few_lacking(&self, other: &Self) -> Result<Self, crate::InsertError> {
                let mut told = Vec::new();
                told.try_reserve_exact(self.len())
                    .map_err(|_| crate::InsertError::NoMemory)?;
                let items = self.looked_up(other, false).map(Self::told);
                told.extend(items.map(<$told as crate::way::Told>::of));
                Self::try_at_once(&told, &mut 0)
            }
        }

        impl<$($param: $bound),+> crate::sieve::Sifted for $array<$($param),+> {
            fn take_out(&mut self, key: u64) {
                self.delete_word(key);
            }

            fn of_list(told: &[$told]) -> Option<Self> {
                Self::try_at_once(told, &mut 0).ok()
            }
        }

        impl<$($param: $bound),+> FromIterator<$item> for $array<$($param),+> {
            fn from_iter<I: IntoIterator<Item = $item>>(items: I) -> Self {
                Self::from_unsorted(items)
            }
        }
    };
}

pub(crate) use at_once;
