//! Entries: the places of keys in maps, whether they are there or not.

/// Writes the `Entry` of a `$map` with values of the type `V` and its two kinds, for a key held as `$held` and shown as
/// `$shown` by `$show`. `$sample` is a line of an example that makes `map` with the keys `$a` and `$b` and the values
/// 10 and 20, and `$c` is no key of it. `$error` is the error of an insert and `$end` what ends the program for it.
macro_rules! entries {
    (
        $map:ident<$($of:ident: $of_bound:path),+> with [$($k:ident: $k_bound:path)?],
        Entry<$($param:ident: $bound:path $(= $default:ty)?),+>;
        $module:ident, $error:ty, $end:path; $held:ty, $show:expr => $shown:ty;
        $sample:literal, $a:literal, $c:literal, $own:literal, $own_c:literal
    ) => {
        /// The place of a key in a map.
        ///
        /// ```
        #[doc = concat!($sample, "\n*map.entry(", $a, ").or_insert(5) += 1;\n*map.entry(", $c, ").or_insert(5) += 1;")]
        #[doc = concat!("assert_eq!((map.get(", $a, "), map.get(", $c, ")), (Some(11), Some(6)));")]
        /// ```
        pub enum Entry<'a, $($param: $bound $(= $default)?),+> {
            /// The key is there.
            Occupied(OccupiedEntry<'a, $($param),+>),
            /// The key is absent.
            Vacant(VacantEntry<'a, $($param),+>),
        }

        /// The place of a key that is there.
        ///
        /// ```
        #[doc = concat!("use sellumaq::", stringify!($module), "::Entry;\n", $sample)]
        #[doc = concat!("if let Entry::Occupied(entry) = map.entry(", $a, ") {")]
        ///     assert_eq!(entry.remove(), 10);
        /// }
        #[doc = concat!("assert!(!map.contains_key(", $a, "));")]
        /// ```
        pub struct OccupiedEntry<'a, $($param: $bound $(= $default)?),+> {
            map: &'a mut $map<$($of),+>,
            key: $held,
            slot: std::ptr::NonNull<V>,
        }

        /// The place of a key that is absent.
        ///
        /// ```
        #[doc = concat!("use sellumaq::", stringify!($module), "::Entry;\n", $sample)]
        #[doc = concat!("if let Entry::Vacant(entry) = map.entry(", $c, ") {")]
        ///     entry.insert(5);
        /// }
        #[doc = concat!("assert_eq!(map.get(", $c, "), Some(5));")]
        /// ```
        pub struct VacantEntry<'a, $($param: $bound $(= $default)?),+> {
            map: &'a mut $map<$($of),+>,
            key: $held,
        }

        // SAFETY: the slot is one of the map, which is borrowed to be changed as by a `&mut V`.
        unsafe impl<$($param: $bound),+> Send for OccupiedEntry<'_, $($param),+> where $held: Send {}

        // SAFETY: as above; a shared entry only reads its slot.
        unsafe impl<$($param: $bound),+> Sync for OccupiedEntry<'_, $($param),+> where $held: Sync {}

        impl<$($of: $of_bound),+> $map<$($of),+> {
            /// The place of a key, to be looked at and filled. A key that is there takes one way down the map, and an
            /// absent one more when it is put in.
            ///
            /// ```
            #[doc = concat!($sample, "\nassert_eq!(*map.entry(", $c, ").or_default(), 0);")]
            /// assert_eq!(map.len(), 3);
            /// ```
            pub fn entry $(<$k: $k_bound>)? (&mut self, key: $held) -> Entry<'_, $($param),+> {
                match self.find_slot($show(&key)) {
                    Some(slot) => Entry::Occupied(OccupiedEntry { map: self, key, slot }),
                    None => Entry::Vacant(VacantEntry { map: self, key }),
                }
            }
        }

        impl<'a, $($param: $bound),+> Entry<'a, $($param),+> {
            /// The key.
            ///
            /// ```
            #[doc = concat!($sample, "\nassert_eq!(map.entry(", $c, ").key().to_owned(), ", $own_c, ");")]
            /// ```
            pub fn key(&self) -> $shown {
                match self {
                    Entry::Occupied(entry) => entry.key(),
                    Entry::Vacant(entry) => entry.key(),
                }
            }

            /// Changes the value, where the key is there.
            ///
            /// ```
            #[doc = concat!($sample, "\nmap.entry(", $a, ").and_modify(|value| *value += 1).or_insert(5);")]
            #[doc = concat!("assert_eq!(map.get(", $a, "), Some(11));")]
            /// ```
            pub fn and_modify(mut self, change: impl FnOnce(&mut V)) -> Self {
                if let Entry::Occupied(entry) = &mut self {
                    change(entry.get_mut());
                }
                self
            }

            /// The value, which is the one given where the key was absent.
            ///
            /// ```
            #[doc = concat!($sample, "\nassert_eq!(*map.entry(", $c, ").or_insert(5), 5);")]
            /// ```
            pub fn or_insert(self, value: V) -> &'a mut V {
                self.or_insert_with(|| value)
            }

            /// The value, which is made where the key was absent. Nothing is put in where the maker panics.
            ///
            /// ```
            #[doc = concat!($sample, "\nassert_eq!(*map.entry(", $c, ").or_insert_with(|| 5), 5);")]
            /// ```
            pub fn or_insert_with(self, make: impl FnOnce() -> V) -> &'a mut V {
                self.or_insert_with_key(|_| make())
            }

            /// The value, which is made of the key where that was absent.
            ///
            /// ```
            #[doc = concat!($sample, "\nassert_eq!(*map.entry(", $c, ").or_insert_with_key(|_| 5), 5);")]
            /// ```
            pub fn or_insert_with_key(self, make: impl FnOnce($shown) -> V) -> &'a mut V {
                match self {
                    Entry::Occupied(entry) => entry.into_mut(),
                    Entry::Vacant(entry) => {
                        let value = make(entry.key());
                        entry.insert(value)
                    }
                }
            }

            /// The value, which is the default where the key was absent.
            ///
            /// ```
            #[doc = concat!($sample, "\nassert_eq!(*map.entry(", $c, ").or_default(), 0);")]
            /// ```
            pub fn or_default(self) -> &'a mut V
            where
                V: Default,
            {
                self.or_insert_with(V::default)
            }

            /// Gives the key a value, and answers its entry.
            ///
            /// ```
            #[doc = concat!($sample, "\nassert_eq!(map.entry(", $c, ").insert_entry(5).remove(), 5);")]
            /// ```
            pub fn insert_entry(self, value: V) -> OccupiedEntry<'a, $($param),+> {
                match self {
                    Entry::Occupied(mut entry) => {
                        entry.insert(value);
                        entry
                    }
                    Entry::Vacant(entry) => entry.insert_entry(value),
                }
            }
        }

        impl<'a, $($param: $bound),+> OccupiedEntry<'a, $($param),+> {
            /// The key.
            ///
            /// ```
            #[doc = concat!($sample, "\nlet entry = map.entry(", $a, ").insert_entry(7);")]
            #[doc = concat!("assert_eq!(entry.key().to_owned(), ", $own, ");")]
            /// ```
            pub fn key(&self) -> $shown {
                $show(&self.key)
            }

            /// The value.
            ///
            /// ```
            #[doc = concat!($sample, "\nlet entry = map.entry(", $a, ").insert_entry(7);")]
            /// assert_eq!(*entry.get(), 7);
            /// ```
            pub fn get(&self) -> &V {
                // SAFETY: a slot lives until the map is changed, and the entry has the map borrowed.
                unsafe { self.slot.as_ref() }
            }

            /// The value, to change.
            ///
            /// ```
            #[doc = concat!($sample, "\nlet mut entry = map.entry(", $a, ").insert_entry(7);")]
            /// *entry.get_mut() += 1;
            /// assert_eq!(*entry.get(), 8);
            /// ```
            pub fn get_mut(&mut self) -> &mut V {
                // SAFETY: as in `get`.
                unsafe { self.slot.as_mut() }
            }

            /// The value, to change for as long as the map is borrowed.
            ///
            /// ```
            #[doc = concat!($sample, "\nlet entry = map.entry(", $a, ").insert_entry(7);")]
            /// let value: &mut u64 = entry.into_mut();
            /// *value += 1;
            #[doc = concat!("assert_eq!(map.get(", $a, "), Some(8));")]
            /// ```
            pub fn into_mut(self) -> &'a mut V {
                // SAFETY: as in `get`; the entry, which alone could change the map meanwhile, is gone.
                unsafe { &mut *self.slot.as_ptr() }
            }

            /// Gives the key another value, and answers the one it had.
            ///
            /// ```
            #[doc = concat!($sample, "\nlet mut entry = map.entry(", $a, ").insert_entry(7);")]
            /// assert_eq!((entry.insert(8), *entry.get()), (7, 8));
            /// ```
            pub fn insert(&mut self, value: V) -> V {
                std::mem::replace(self.get_mut(), value)
            }

            /// Takes the key out, and answers its value.
            ///
            /// ```
            #[doc = concat!($sample, "\nlet entry = map.entry(", $a, ").insert_entry(7);")]
            /// assert_eq!(entry.remove(), 7);
            /// assert_eq!(map.len(), 1);
            /// ```
            pub fn remove(self) -> V {
                self.remove_entry().1
            }

            /// Takes the key out, and answers it with its value.
            ///
            /// ```
            #[doc = concat!($sample, "\nlet entry = map.entry(", $a, ").insert_entry(7);")]
            /// assert_eq!(entry.remove_entry().1, 7);
            /// assert_eq!(map.len(), 1);
            /// ```
            pub fn remove_entry(self) -> ($held, V) {
                let value = *self.get();
                self.map.delete($show(&self.key));
                (self.key, value)
            }
        }

        impl<'a, $($param: $bound),+> VacantEntry<'a, $($param),+> {
            /// The key.
            ///
            /// ```
            #[doc = concat!("use sellumaq::", stringify!($module), "::Entry;\n", $sample)]
            #[doc = concat!("if let Entry::Vacant(entry) = map.entry(", $c, ") {")]
            #[doc = concat!("    assert_eq!(entry.key().to_owned(), ", $own_c, ");")]
            /// }
            /// ```
            pub fn key(&self) -> $shown {
                $show(&self.key)
            }

            /// The key, which is given back.
            ///
            /// ```
            #[doc = concat!("use sellumaq::", stringify!($module), "::Entry;\n", $sample)]
            #[doc = concat!("if let Entry::Vacant(entry) = map.entry(", $c, ") {")]
            #[doc = concat!("    assert_eq!(entry.into_key(), ", $c, ");")]
            /// }
            /// ```
            pub fn into_key(self) -> $held {
                self.key
            }

            /// Puts the key in with a value, and answers where that stands. It ends as an insert of the map does where
            /// there is an error.
            ///
            /// ```
            #[doc = concat!("use sellumaq::", stringify!($module), "::Entry;\n", $sample)]
            #[doc = concat!("if let Entry::Vacant(entry) = map.entry(", $c, ") {")]
            ///     *entry.insert(5) += 1;
            /// }
            #[doc = concat!("assert_eq!(map.get(", $c, "), Some(6));")]
            /// ```
            pub fn insert(self, value: V) -> &'a mut V {
                self.try_insert(value).unwrap_or_else($end)
            }

            /// Puts the key in with a value, and answers where that stands.
            ///
            /// # Errors
            ///
            /// Those of an insert of the map, which is as it was then.
            ///
            /// ```
            #[doc = concat!("use sellumaq::", stringify!($module), "::Entry;\n", $sample)]
            #[doc = concat!("if let Entry::Vacant(entry) = map.entry(", $c, ") {")]
            ///     assert_eq!(entry.try_insert(5), Ok(&mut 5));
            /// }
            /// ```
            pub fn try_insert(self, value: V) -> Result<&'a mut V, $error> {
                let slot = self.map.make_slot($show(&self.key))?;
                // SAFETY: a slot lives until the map is changed, which stays borrowed as long as the reference. It has
                // room for a value, and holds one before it is lent.
                Ok(unsafe {
                    slot.as_ptr().write(value);
                    &mut *slot.as_ptr()
                })
            }

            /// Puts the key in with a value, and answers its entry.
            ///
            /// ```
            #[doc = concat!("use sellumaq::", stringify!($module), "::Entry;\n", $sample)]
            #[doc = concat!("if let Entry::Vacant(entry) = map.entry(", $c, ") {")]
            ///     assert_eq!(*entry.insert_entry(5).get(), 5);
            /// }
            /// ```
            pub fn insert_entry(self, value: V) -> OccupiedEntry<'a, $($param),+> {
                let slot = self.map.make_slot($show(&self.key)).unwrap_or_else($end);
                // SAFETY: as in `try_insert`.
                unsafe { slot.as_ptr().write(value) };
                OccupiedEntry { map: self.map, key: self.key, slot }
            }
        }

        impl<$($param: $bound),+> std::fmt::Debug for Entry<'_, $($param),+> {
            fn fmt(&self, to: &mut std::fmt::Formatter<'_>) -> std::fmt::Result {
                match self {
                    Entry::Occupied(entry) => entry.fmt(to),
                    Entry::Vacant(entry) => entry.fmt(to),
                }
            }
        }

        impl<$($param: $bound),+> std::fmt::Debug for OccupiedEntry<'_, $($param),+> {
            fn fmt(&self, to: &mut std::fmt::Formatter<'_>) -> std::fmt::Result {
                to.debug_struct("OccupiedEntry").field("key", &self.key()).field("value", self.get()).finish()
            }
        }

        impl<$($param: $bound),+> std::fmt::Debug for VacantEntry<'_, $($param),+> {
            fn fmt(&self, to: &mut std::fmt::Formatter<'_>) -> std::fmt::Result {
                to.debug_tuple("VacantEntry").field(&self.key()).finish()
            }
        }
    };
}

pub(crate) use entries;
