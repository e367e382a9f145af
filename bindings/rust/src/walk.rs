//! Iterators over an ordered array that change nothing in it.

/// Writes the iterators `Range`, `Iter` and `IntoIter` of an `$array` over its way through a range, a `$way`, which has
/// `next`, `next_back`, `fold` and `rfold`, each given the array. What these tell the array's `item` makes an `$item`
/// of. `$sample` is a line of an example that makes `array` with three keys.
macro_rules! walks {
    ($array:ident<$($param:ident: $bound:path = $default:ty),+> through $way:ty; $item:ty; $sample:literal) => {
        #[doc = concat!("What a [`", stringify!($array), "`] holds in a range, by ascending key, from both ends.")]
        ///
        /// ```
        #[doc = $sample]
        /// let mut range = array.range(..);
        /// assert!(range.next_back() > range.next());
        /// assert_eq!(range.count(), 1);
        /// ```
        #[derive(Clone)]
        #[must_use = "iterators are lazy and do nothing unless consumed"]
        pub struct Range<'a, $($param: $bound = $default),+> {
            array: &'a $array<$($param),+>,
            way: $way,
        }

        impl<$($param: $bound),+> Iterator for Range<'_, $($param),+> {
            type Item = $item;

            #[inline]
            fn next(&mut self) -> Option<$item> {
                self.way.next(self.array).map($array::<$($param),+>::item)
            }

            #[inline]
            fn fold<B, F: FnMut(B, $item) -> B>(self, start: B, mut act: F) -> B {
                let item = $array::<$($param),+>::item;
                self.way.fold(self.array, start, |done, told| act(done, item(told)))
            }

            fn last(mut self) -> Option<$item> {
                self.next_back()
            }

            fn min(mut self) -> Option<$item> {
                self.next()
            }

            fn max(mut self) -> Option<$item> {
                self.next_back()
            }
        }

        impl<$($param: $bound),+> DoubleEndedIterator for Range<'_, $($param),+> {
            #[inline]
            fn next_back(&mut self) -> Option<$item> {
                self.way.next_back(self.array).map($array::<$($param),+>::item)
            }

            #[inline]
            fn rfold<B, F: FnMut(B, $item) -> B>(self, start: B, mut act: F) -> B {
                let item = $array::<$($param),+>::item;
                self.way.rfold(self.array, start, |done, told| act(done, item(told)))
            }
        }

        impl<$($param: $bound),+> std::iter::FusedIterator for Range<'_, $($param),+> {}

        impl<$($param: $bound),+> std::fmt::Debug for Range<'_, $($param),+> {
            fn fmt(&self, to: &mut std::fmt::Formatter<'_>) -> std::fmt::Result {
                to.debug_list().entries(self.clone()).finish()
            }
        }

        #[doc = concat!("All that a [`", stringify!($array), "`] holds, by ascending key, from both ends.")]
        ///
        /// ```
        #[doc = $sample]
        /// let mut items = array.iter();
        /// assert!(items.next_back() > items.next());
        /// assert_eq!(items.len(), 1);
        /// ```
        #[derive(Clone)]
        #[must_use = "iterators are lazy and do nothing unless consumed"]
        pub struct Iter<'a, $($param: $bound = $default),+> {
            range: Range<'a, $($param),+>,
            left: usize,
        }

        impl<$($param: $bound),+> Iterator for Iter<'_, $($param),+> {
            type Item = $item;

            #[inline]
            fn next(&mut self) -> Option<$item> {
                self.left = self.left.checked_sub(1)?;
                self.range.next()
            }

            #[inline]
            fn fold<B, F: FnMut(B, $item) -> B>(self, start: B, act: F) -> B {
                self.range.fold(start, act)
            }

            fn size_hint(&self) -> (usize, Option<usize>) {
                (self.left, Some(self.left))
            }

            fn last(mut self) -> Option<$item> {
                self.next_back()
            }

            fn min(mut self) -> Option<$item> {
                self.next()
            }

            fn max(mut self) -> Option<$item> {
                self.next_back()
            }
        }

        impl<$($param: $bound),+> DoubleEndedIterator for Iter<'_, $($param),+> {
            #[inline]
            fn next_back(&mut self) -> Option<$item> {
                self.left = self.left.checked_sub(1)?;
                self.range.next_back()
            }

            #[inline]
            fn rfold<B, F: FnMut(B, $item) -> B>(self, start: B, act: F) -> B {
                self.range.rfold(start, act)
            }
        }

        impl<$($param: $bound),+> ExactSizeIterator for Iter<'_, $($param),+> {}

        impl<$($param: $bound),+> std::iter::FusedIterator for Iter<'_, $($param),+> {}

        impl<$($param: $bound),+> std::fmt::Debug for Iter<'_, $($param),+> {
            fn fmt(&self, to: &mut std::fmt::Formatter<'_>) -> std::fmt::Result {
                to.debug_list().entries(self.clone()).finish()
            }
        }

        #[doc = concat!("All that a [`", stringify!($array), "`] held, which the iterator owns, by ascending key, from both ends.")]
        ///
        /// ```
        #[doc = $sample]
        /// let mut items = array.into_iter();
        /// assert!(items.next_back() > items.next());
        /// assert_eq!(items.len(), 1);
        /// ```
        pub struct IntoIter<$($param: $bound = $default),+> {
            array: $array<$($param),+>,
            way: $way,
            left: usize,
        }

        impl<$($param: $bound),+> IntoIter<$($param),+> {
            fn rest(&self) -> Iter<'_, $($param),+> {
                Iter { range: Range { array: &self.array, way: self.way.clone() }, left: self.left }
            }
        }

        impl<$($param: $bound),+> Iterator for IntoIter<$($param),+> {
            type Item = $item;

            #[inline]
            fn next(&mut self) -> Option<$item> {
                self.left = self.left.checked_sub(1)?;
                self.way.next(&self.array).map($array::<$($param),+>::item)
            }

            #[inline]
            fn fold<B, F: FnMut(B, $item) -> B>(self, start: B, mut act: F) -> B {
                let item = $array::<$($param),+>::item;
                self.way.fold(&self.array, start, |done, told| act(done, item(told)))
            }

            fn size_hint(&self) -> (usize, Option<usize>) {
                (self.left, Some(self.left))
            }
        }

        impl<$($param: $bound),+> DoubleEndedIterator for IntoIter<$($param),+> {
            #[inline]
            fn next_back(&mut self) -> Option<$item> {
                self.left = self.left.checked_sub(1)?;
                self.way.next_back(&self.array).map($array::<$($param),+>::item)
            }

            #[inline]
            fn rfold<B, F: FnMut(B, $item) -> B>(self, start: B, mut act: F) -> B {
                let item = $array::<$($param),+>::item;
                self.way.rfold(&self.array, start, |done, told| act(done, item(told)))
            }
        }

        impl<$($param: $bound),+> ExactSizeIterator for IntoIter<$($param),+> {}

        impl<$($param: $bound),+> std::iter::FusedIterator for IntoIter<$($param),+> {}

        impl<$($param: $bound),+> std::fmt::Debug for IntoIter<$($param),+> {
            fn fmt(&self, to: &mut std::fmt::Formatter<'_>) -> std::fmt::Result {
                to.debug_list().entries(self.rest()).finish()
            }
        }

        impl<$($param: $bound),+> IntoIterator for $array<$($param),+> {
            type Item = $item;
            type IntoIter = IntoIter<$($param),+>;

            fn into_iter(self) -> IntoIter<$($param),+> {
                let (left, way) = (self.len(), self.iter().range.way);
                IntoIter { array: self, way, left }
            }
        }

        impl<'a, $($param: $bound),+> IntoIterator for &'a $array<$($param),+> {
            type Item = $item;
            type IntoIter = Iter<'a, $($param),+>;

            fn into_iter(self) -> Iter<'a, $($param),+> {
                self.iter()
            }
        }
    };
}

/// Writes an iterator over a half of each pair of another, which it takes by `$half`.
macro_rules! halves {
    (
        $(#[$about:meta])*
        $name:ident<$($life:lifetime,)? $($param:ident: $bound:path = $default:ty),+> of $pairs:ty; $half:tt: $item:ty
    ) => {
        $(#[$about])*
        #[must_use = "iterators are lazy and do nothing unless consumed"]
        pub struct $name<$($life,)? $($param: $bound = $default),+> {
            pairs: $pairs,
        }

        impl<$($life,)? $($param: $bound),+> Iterator for $name<$($life,)? $($param),+> {
            type Item = $item;

            #[inline]
            fn next(&mut self) -> Option<$item> {
                self.pairs.next().map(|pair| pair.$half)
            }

            #[inline]
            fn fold<B, F: FnMut(B, $item) -> B>(self, start: B, mut act: F) -> B {
                self.pairs.fold(start, |done, pair| act(done, pair.$half))
            }

            fn size_hint(&self) -> (usize, Option<usize>) {
                self.pairs.size_hint()
            }

            fn last(mut self) -> Option<$item> {
                self.next_back()
            }
        }

        impl<$($life,)? $($param: $bound),+> DoubleEndedIterator for $name<$($life,)? $($param),+> {
            #[inline]
            fn next_back(&mut self) -> Option<$item> {
                self.pairs.next_back().map(|pair| pair.$half)
            }

            #[inline]
            fn rfold<B, F: FnMut(B, $item) -> B>(self, start: B, mut act: F) -> B {
                self.pairs.rfold(start, |done, pair| act(done, pair.$half))
            }
        }

        impl<$($life,)? $($param: $bound),+> ExactSizeIterator for $name<$($life,)? $($param),+> {}

        impl<$($life,)? $($param: $bound),+> std::iter::FusedIterator for $name<$($life,)? $($param),+> {}

        impl<$($life,)? $($param: $bound),+> std::fmt::Debug for $name<$($life,)? $($param),+> {
            fn fmt(&self, to: &mut std::fmt::Formatter<'_>) -> std::fmt::Result {
                self.pairs.fmt(to)
            }
        }
    };
}

pub(crate) use {halves, walks};
