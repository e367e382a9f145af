//! What ordered maps have alike.

/// Writes the calls of a `$map` with values of the type `V` at the ends of its order, and its iterators over keys and
/// values. Keys come as `$key` and are looked up by what is `$lookup`. `$sample` is a line of an example that makes
/// `map` with the values 10 and 20 of the keys `$a` and `$b`; an `$owned` key is one that the map gives away.
macro_rules! ordered_map {
    (
        $map:ident<$($param:ident: $bound:path = $default:ty),+>; $key:ty, $lookup:path;
        $sample:literal, $a:literal, $own_a:literal, $own_b:literal
    ) => {
        impl<$($param: $bound),+> $map<$($param),+> {
            /// A key with its value, where it is there.
            ///
            /// ```
            #[doc = concat!($sample, "\nassert_eq!(map.get_key_value(", $a, "), Some((", $own_a, ", 10)));")]
            /// ```
            pub fn get_key_value(&self, key: impl $lookup) -> Option<($key, V)> {
                let key = Self::owned(&key);
                self.get(&key).map(|value| (key, value))
            }

            /// Takes a key out, and answers it with its value.
            ///
            /// ```
            #[doc = concat!($sample, "\nassert_eq!(map.remove_entry(", $a, "), Some((", $own_a, ", 10)));")]
            /// assert_eq!(map.len(), 1);
            /// ```
            pub fn remove_entry(&mut self, key: impl $lookup) -> Option<($key, V)> {
                let key = Self::owned(&key);
                self.remove(&key).map(|value| (key, value))
            }

            /// Takes the least key out, and answers it with its value.
            ///
            /// ```
            #[doc = concat!($sample, "\nassert_eq!(map.pop_first(), Some((", $own_a, ", 10)));")]
            /// assert_eq!(map.len(), 1);
            /// ```
            pub fn pop_first(&mut self) -> Option<($key, V)> {
                let pair = self.first_key_value()?;
                self.delete(&pair.0);
                Some(pair)
            }

            /// Takes the greatest key out, and answers it with its value.
            ///
            /// ```
            #[doc = concat!($sample, "\nassert_eq!(map.pop_last(), Some((", $own_b, ", 20)));")]
            /// assert_eq!(map.len(), 1);
            /// ```
            pub fn pop_last(&mut self) -> Option<($key, V)> {
                let pair = self.last_key_value()?;
                self.delete(&pair.0);
                Some(pair)
            }

            /// The keys in ascending order.
            ///
            /// ```
            #[doc = concat!($sample, "\nassert!(map.keys().rev().eq([", $own_b, ", ", $own_a, "]));")]
            /// ```
            pub fn keys(&self) -> Keys<'_, $($param),+> {
                Keys { pairs: self.iter() }
            }

            /// The values, by ascending key.
            ///
            /// ```
            #[doc = concat!($sample, "\nassert_eq!(map.values().sum::<u64>(), 30);")]
            /// ```
            pub fn values(&self) -> Values<'_, $($param),+> {
                Values { pairs: self.iter() }
            }

            /// The keys in ascending order; the map goes.
            ///
            /// ```
            #[doc = concat!($sample, "\nassert!(map.into_keys().eq([", $own_a, ", ", $own_b, "]));")]
            /// ```
            pub fn into_keys(self) -> IntoKeys<$($param),+> {
                IntoKeys { pairs: self.into_iter() }
            }

            /// The values, by ascending key; the map goes.
            ///
            /// ```
            #[doc = concat!($sample, "\nassert!(map.into_values().eq([10, 20]));")]
            /// ```
            pub fn into_values(self) -> IntoValues<$($param),+> {
                IntoValues { pairs: self.into_iter() }
            }

            /// The pairs by ascending key, their values to change.
            ///
            /// ```
            #[doc = concat!($sample, "\nmap.iter_mut().for_each(|(_, value)| *value += 1);")]
            /// assert!(map.values().eq([11, 21]));
            /// ```
            pub fn iter_mut(&mut self) -> IterMut<'_, $($param),+> {
                self.all_mut()
            }

            /// The values by ascending key, to change.
            ///
            /// ```
            #[doc = concat!($sample, "\nmap.values_mut().for_each(|value| *value += 1);")]
            /// assert!(map.values().eq([11, 21]));
            /// ```
            pub fn values_mut(&mut self) -> ValuesMut<'_, $($param),+> {
                ValuesMut { pairs: self.all_mut() }
            }
        }

        crate::walk::halves!(
            /// The keys of a map in ascending order.
            ///
            /// ```
            #[doc = concat!($sample, "\nassert_eq!(map.keys().next(), Some(", $own_a, "));")]
            /// ```
            #[derive(Clone)]
            Keys<'a, $($param: $bound = $default),+> of Iter<'a, $($param),+>; 0: $key
        );
        crate::walk::halves!(
            /// The values of a map by ascending key.
            ///
            /// ```
            #[doc = concat!($sample, "\nassert_eq!(map.values().next_back(), Some(20));")]
            /// ```
            #[derive(Clone)]
            Values<'a, $($param: $bound = $default),+> of Iter<'a, $($param),+>; 1: V
        );
        crate::walk::halves!(
            /// The values of a map by ascending key, to change.
            ///
            /// ```
            #[doc = concat!($sample, "\n*map.values_mut().next().unwrap() += 1;\nassert!(map.values().eq([11, 20]));")]
            /// ```
            ValuesMut<'a, $($param: $bound = $default),+> of IterMut<'a, $($param),+>; 1: &'a mut V
        );
        crate::walk::halves!(
            /// The keys of a map in ascending order, which the iterator owns.
            ///
            /// ```
            #[doc = concat!($sample, "\nassert_eq!(map.into_keys().next_back(), Some(", $own_b, "));")]
            /// ```
            IntoKeys<$($param: $bound = $default),+> of IntoIter<$($param),+>; 0: $key
        );
        crate::walk::halves!(
            /// The values of a map by ascending key, which the iterator owns.
            ///
            /// ```
            #[doc = concat!($sample, "\nassert_eq!(map.into_values().next(), Some(10));")]
            /// ```
            IntoValues<$($param: $bound = $default),+> of IntoIter<$($param),+>; 1: V
        );
    };
}

pub(crate) use ordered_map;
