//! Iterators over an ordered map that lend its values to be changed.

/// Writes `RangeMut` and `IterMut` of a `$map` with values of the type `V`, whose keys come as `$key`. `$sample` is a
/// line of an example that makes `map` with the values 10 and 20.
macro_rules! slot_walks {
    ($map:ident<$($param:ident: $bound:path = $default:ty),+> through $way:ty; $key:ty; $sample:literal) => {
        #[doc = concat!("Keys of a [`", stringify!($map), "`] in a range, each beside its value, to change, from both ends.")]
        ///
        /// ```
        #[doc = $sample]
        /// *map.range_mut(..).next_back().unwrap().1 += 1;
        /// assert!(map.values().eq([10, 21]));
        /// ```
        #[must_use = "iterators are lazy and do nothing unless consumed"]
        pub struct RangeMut<'a, $($param: $bound = $default),+> {
            map: &'a $map<$($param),+>,
            way: $way,
            lent: std::marker::PhantomData<&'a mut V>,
        }

        impl<'a, $($param: $bound),+> RangeMut<'a, $($param),+> {
            fn of(map: &'a mut $map<$($param),+>, way: $way) -> Self {
                RangeMut { map, way, lent: std::marker::PhantomData }
            }

            fn lend((key, slot): ($key, std::ptr::NonNull<V>)) -> ($key, &'a mut V) {
                // SAFETY: the map is borrowed to be changed for as long as the slot is lent, and isn't changed
                // meanwhile, so the slot stays. No key comes twice, so no slot is lent twice. On the way to the next
                // slot no value is read that may be lent.
                (key, unsafe { &mut *slot.as_ptr() })
            }
        }

        impl<'a, $($param: $bound),+> Iterator for RangeMut<'a, $($param),+> {
            type Item = ($key, &'a mut V);

            fn next(&mut self) -> Option<Self::Item> {
                self.way.next(self.map).map(Self::lend)
            }

            fn last(mut self) -> Option<Self::Item> {
                self.next_back()
            }
        }

        impl<$($param: $bound),+> DoubleEndedIterator for RangeMut<'_, $($param),+> {
            fn next_back(&mut self) -> Option<Self::Item> {
                self.way.next_back(self.map).map(Self::lend)
            }
        }

        impl<$($param: $bound),+> std::iter::FusedIterator for RangeMut<'_, $($param),+> {}

        impl<$($param: $bound),+> std::fmt::Debug for RangeMut<'_, $($param),+> {
            fn fmt(&self, to: &mut std::fmt::Formatter<'_>) -> std::fmt::Result {
                let mut way = self.way.clone();
                let mut rest = to.debug_list();
                while let Some((key, _)) = way.next(self.map) {
                    // what is shown hasn't been lent
                    rest.entries(self.map.get(&key).map(|value| (&key, value)));
                }
                rest.finish()
            }
        }

        #[doc = concat!("The keys of a [`", stringify!($map), "`], each beside its value, to change, from both ends.")]
        ///
        /// ```
        #[doc = $sample]
        /// for (_, value) in &mut map {
        ///     *value += 1;
        /// }
        /// assert!(map.values().eq([11, 21]));
        /// ```
        #[derive(Debug)]
        #[must_use = "iterators are lazy and do nothing unless consumed"]
        pub struct IterMut<'a, $($param: $bound = $default),+> {
            range: RangeMut<'a, $($param),+>,
            left: usize,
        }

        impl<'a, $($param: $bound),+> Iterator for IterMut<'a, $($param),+> {
            type Item = ($key, &'a mut V);

            fn next(&mut self) -> Option<Self::Item> {
                self.left = self.left.checked_sub(1)?;
                self.range.next()
            }

            fn size_hint(&self) -> (usize, Option<usize>) {
                (self.left, Some(self.left))
            }

            fn last(mut self) -> Option<Self::Item> {
                self.next_back()
            }
        }

        impl<$($param: $bound),+> DoubleEndedIterator for IterMut<'_, $($param),+> {
            fn next_back(&mut self) -> Option<Self::Item> {
                self.left = self.left.checked_sub(1)?;
                self.range.next_back()
            }
        }

        impl<$($param: $bound),+> ExactSizeIterator for IterMut<'_, $($param),+> {}

        impl<$($param: $bound),+> std::iter::FusedIterator for IterMut<'_, $($param),+> {}

        impl<$($param: $bound),+> $map<$($param),+> {
            fn all_mut(&mut self) -> IterMut<'_, $($param),+> {
                let left = self.len();
                IterMut { range: self.range_mut(..), left }
            }
        }

        impl<'a, $($param: $bound),+> IntoIterator for &'a mut $map<$($param),+> {
            type Item = ($key, &'a mut V);
            type IntoIter = IterMut<'a, $($param),+>;

            fn into_iter(self) -> IterMut<'a, $($param),+> {
                self.all_mut()
            }
        }
    };
}

pub(crate) use slot_walks;
