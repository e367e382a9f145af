//! What sets and maps of words have alike.

/// So many items are made an array at once, where they are no fewer than those that are there, and fewer are put in one
/// by one.
pub const MANY: usize = 64;

/// Writes what a set and a map of words have alike: the calls that count, and the traits of std that go through what
/// it holds, of keys of the type `K`. `$sample` is a line of an example that makes `array` with the keys 1, 2 and 10.
macro_rules! word_array {
    (
        $array:ident<$($param:ident: $bound:path),+>; $told:ty, $walk:ident, $walk_down:ident;
        $count:ident, $first_empty:ident, $last_empty:ident,
        $remove_range:ident, $retain_range:ident, $copy_range:ident, $split_off:ident;
        $sample:literal
    ) => {
        impl<$($param: $bound),+> $array<$($param),+> {
            fn search(&self, call: Search, from: u64) -> Option<u64> {
                let (handle, mut word) = (self.handle, 0);
                // SAFETY: the call is one of `sellumaq_sys` for this kind, which only reads; the handle is this
                // array's, lent for this call alone, and the word this function's.
                unsafe { call(&handle, from, &mut word) }.then_some(word)
            }

            fn search_absent(&self, call: Search, from: K) -> Option<K> {
                let word = self.search(call, from.word())?;
                (word <= K::LAST).then(|| K::of_word(word))
            }

            /// The least one from a number on that is no key.
            ///
            /// ```
            #[doc = $sample]
            /// assert_eq!(array.absent_at_or_after(1), Some(3));
            /// ```
            #[must_use]
            pub fn absent_at_or_after(&self, from: K) -> Option<K> {
                self.search_absent(sellumaq_sys::$first_empty, from)
            }

            /// The greatest one up to a number that is no key.
            ///
            /// ```
            #[doc = $sample]
            /// assert_eq!(array.absent_at_or_before(2), Some(0));
            /// ```
            #[must_use]
            pub fn absent_at_or_before(&self, from: K) -> Option<K> {
                self.search_absent(sellumaq_sys::$last_empty, from)
            }

            fn count_words(&self, from: u64, to: u64) -> usize {
                let handle = self.handle;
                // SAFETY: as in `search`.
                let keys = unsafe { sellumaq_sys::$count(&handle, from, to) };
                keys as usize
            }

            /// How many keys there are in a range. No way through them is made.
            ///
            /// ```
            #[doc = $sample]
            /// assert_eq!((array.count(2..), array.count(..=1), array.count(3..10)), (2, 1, 0));
            /// ```
            #[must_use]
            pub fn count(&self, range: impl std::ops::RangeBounds<K>) -> usize {
                let ends = Span::of(range).ends();
                ends.map_or(0, |(from, to)| self.count_words(from, to))
            }

            /// Takes all keys of a range out, and answers how many they were. It can't want memory.
            ///
            /// ```
            #[doc = concat!($sample, "\nlet mut array = array;")]
            /// assert_eq!((array.remove_range(2..10), array.len()), (1, 2));
            /// ```
            pub fn remove_range(&mut self, range: impl std::ops::RangeBounds<K>) -> usize {
                let (from, to) = Span::of(range).ends().unwrap_or(crate::span::NO_WORDS);
                // SAFETY: the handle is this array's, lent for this call alone.
                let keys = unsafe { sellumaq_sys::$remove_range(&mut self.handle, from, to) };
                keys as usize
            }

            /// Takes all keys out but those of a range, and answers how many they were. It can't want memory.
            ///
            /// ```
            #[doc = concat!($sample, "\nlet mut array = array;")]
            /// assert_eq!((array.retain_range(2..10), array.len()), (2, 1));
            /// ```
            pub fn retain_range(&mut self, range: impl std::ops::RangeBounds<K>) -> usize {
                let (from, to) = Span::of(range).ends().unwrap_or(crate::span::NO_WORDS);
                // SAFETY: the handle is this array's, lent for this call alone.
                let keys = unsafe { sellumaq_sys::$retain_range(&mut self.handle, from, to) };
                keys as usize
            }

            /// An array of what it holds in a range of keys.
            ///
            /// ```
            #[doc = $sample]
            /// assert!(array.copy_range(2..).iter().eq(array.range(2..)));
            /// ```
            #[must_use]
            pub fn copy_range(&self, range: impl std::ops::RangeBounds<K>) -> Self {
                let (from, to) = Span::of(range).ends().unwrap_or(crate::span::NO_WORDS);
                let handle = self.handle;
                // SAFETY: the handles are two arrays', lent for this call alone, which changes only the new one.
                let made = Self::made_by(|made| unsafe {
                    sellumaq_sys::$copy_range(made, &handle, from, to)
                });
                made.unwrap_or_else(crate::InsertError::end)
            }

            /// How many keys lie below a number. No way through them is made.
            ///
            /// ```
            #[doc = $sample]
            /// assert_eq!((array.rank(2), array.rank(11)), (1, 3));
            /// ```
            #[must_use]
            pub fn rank(&self, below: K) -> usize {
                self.count(..below)
            }

            /// All that it holds, by ascending key.
            ///
            /// ```
            #[doc = $sample]
            /// assert_eq!(array.iter().len(), 3);
            /// assert_eq!(array.iter().next(), array.iter().rev().last());
            /// ```
            pub fn iter(&self) -> Iter<'_, $($param),+> {
                Iter {
                    range: self.range(..),
                    left: self.len(),
                }
            }

            /// What it holds in a range of keys, by ascending key. A range that ends before it begins holds nothing.
            ///
            /// ```
            #[doc = $sample]
            /// assert_eq!(array.range(2..=10).count(), 2);
            /// assert!(array.range(3..10).next().is_none());
            /// ```
            pub fn range(&self, range: impl std::ops::RangeBounds<K>) -> Range<'_, $($param),+> {
                Range {
                    array: self,
                    way: Way::of(Span::of(range)),
                }
            }

            /// Takes out all from a key on, and answers it as an array. It ends the program where there is no memory.
            ///
            /// ```
            #[doc = concat!($sample, "\nlet mut array = array;")]
            /// let upper = array.split_off(2);
            /// assert_eq!((array.len(), upper.len()), (1, 2));
            /// ```
            pub fn split_off(&mut self, key: impl std::borrow::Borrow<K>) -> Self {
                self.try_split_off(key).unwrap_or_else(crate::no_room)
            }

            /// Takes out all from a key on, and answers it as an array.
            ///
            /// # Errors
            ///
            /// [`NoMemory`](crate::NoMemory) where there is none for the two parts, and the array is as it was.
            ///
            /// ```
            #[doc = concat!($sample, "\nlet mut array = array;")]
            /// assert_eq!(array.try_split_off(2).map(|upper| upper.len()), Ok(2));
            /// ```
            pub fn try_split_off(
                &mut self,
                key: impl std::borrow::Borrow<K>,
            ) -> Result<Self, crate::NoMemory> {
                let (handle, at) = (&mut self.handle, key.borrow().word());
                // SAFETY: the handles are two arrays', lent for this call alone.
                let made = Self::made_by(|made| unsafe { sellumaq_sys::$split_off(made, handle, at) });
                made.map_err(crate::NoMemory::of)
            }
        }

        impl<$($param: $bound),+> crate::way::Walked for $array<$($param),+> {
            type Told = $told;

            fn walk(&self, from: u64, _to: u64, room: &mut crate::way::Room<$told>) -> usize {
                let handle = self.handle;
                // SAFETY: as in `search`; the call writes to no more of the room than there is.
                unsafe { sellumaq_sys::$walk(&handle, from, room.as_mut_ptr().cast(), room.len()) }
            }

            fn walk_down(&self, _from: u64, to: u64, room: &mut crate::way::Room<$told>) -> usize {
                // One key is told by one search.
                if let [only] = room {
                    return self
                        .greatest(to)
                        .map(|told| only.write(crate::way::Told::of(told)))
                        .iter()
                        .len();
                }
                let handle = self.handle;
                // SAFETY: as in `walk`.
                unsafe { sellumaq_sys::$walk_down(&handle, to, room.as_mut_ptr().cast(), room.len()) }
            }

            fn count_between(&self, from: u64, to: u64) -> u64 {
                self.count_words(from, to) as u64
            }
        }

        impl<$($param: $bound),+> std::hash::Hash for $array<$($param),+> {
            fn hash<H: std::hash::Hasher>(&self, to: &mut H) {
                to.write_usize(self.len());
                self.iter().for_each(|item| item.hash(to));
            }
        }

        impl<$($param: $bound),+> PartialEq for $array<$($param),+> {
            fn eq(&self, other: &Self) -> bool {
                self.len() == other.len() && self.iter().eq(other)
            }
        }

        impl<$($param: $bound),+> PartialOrd for $array<$($param),+> {
            fn partial_cmp(&self, other: &Self) -> Option<std::cmp::Ordering> {
                Some(self.cmp(other))
            }
        }

        impl<$($param: $bound),+> Ord for $array<$($param),+> {
            fn cmp(&self, other: &Self) -> std::cmp::Ordering {
                self.iter().cmp(other)
            }
        }
    };
}

/// Writes what sets and maps of words have alike in taking what others hold, by the call of C `$append_call`, and those
/// of std's traits that build one of items.
macro_rules! collected {
    ($array:ident<$($param:ident: $bound:path),+>; $item:ty, $of_words:ty; $append_call:ident; $sample:literal) => {
        impl<$($param: $bound),+> $array<$($param),+> {
            /// Moves all that another holds into this one. A key of both has the other's value then. It ends the
            /// program where there is no memory.
            ///
            /// ```
            #[doc = concat!($sample, "\nlet (mut array, mut all) = (array, sellumaq::", stringify!($array), "::new());")]
            /// all.append(&mut array);
            /// assert_eq!((all.len(), array.len()), (3, 0));
            /// ```
            pub fn append(&mut self, other: &mut Self) {
                self.try_append(other).unwrap_or_else(crate::no_room);
            }

            /// Moves all that another holds into this one. A key of both has the other's value then.
            ///
            /// # Errors
            ///
            /// [`NoMemory`](crate::NoMemory) where there is none, and both are as they were.
            ///
            /// ```
            #[doc = concat!($sample, "\nlet mut array = array;\nlet mut none = sellumaq::", stringify!($array), "::new();")]
            /// assert_eq!(array.try_append(&mut none), Ok(()));
            /// ```
            pub fn try_append(&mut self, other: &mut Self) -> Result<(), crate::NoMemory> {
                if other.is_empty() {
                    return Ok(());
                }
                if !self.is_empty() {
                    // SAFETY: the handles are two arrays', lent for this call alone, which leaves values of the first.
                    let told = unsafe { sellumaq_sys::$append_call(&mut other.handle, &mut self.handle) };
                    if told != sellumaq_sys::SELLUMAQ_DONE {
                        return Err(crate::NoMemory);
                    }
                }
                std::mem::swap(self, other);
                Ok(())
            }
        }

        impl<$($param: $bound),+> Extend<$item> for $array<$($param),+> {
            fn extend<I: IntoIterator<Item = $item>>(&mut self, items: I) {
                let items = items.into_iter();
                let least = items.size_hint().0;
                if least < crate::words::MANY || least < self.len() {
                    items.for_each(|item| self.put_item(item));
                } else {
                    self.append(&mut items.collect());
                }
            }
        }

        impl<$($param: $bound),+> Eq for $array<$($param),+> {}

        /// An array of other types than `u64` is made of items by `from_iter` or `collect`.
        impl<const N: usize> From<[$of_words; N]> for $array {
            fn from(items: [$of_words; N]) -> Self {
                items.into_iter().collect()
            }
        }
    };
}

pub(crate) use {collected, word_array};
