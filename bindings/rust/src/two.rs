//! Arrays that are made of others, and what is told of two.

/// An array with at most one key for so many of another's is looked up in that, key by key.
pub const MANY: usize = 8;

/// Writes how an ordered `$array` of `$item`s is copied, made of two by the signs `|`, `&`, `-` and `^`, and compared
/// with another, by the calls of C over its `$handle`. `$has` tells whether a key is there, and `$get` the item of one;
/// the key of an item is `$key`. `$error` is the error of an array that isn't made, `$of` makes it of an insert's,
/// `$errors` says when it comes, and `$end` ends the program for it. `$sample` is a line of an example that makes `a`
/// and `b` with two keys each, of which both have one.
macro_rules! of_two {
    (
        $array:ident<$($param:ident: $bound:path),+>; $item:ty, |$it:ident| $key:expr; $has:ident, $get:ident; $handle:ident,
        $copy:ident, $union:ident, $intersection:ident, $difference:ident, $symmetric_difference:ident;
        $common_len:ident, $is_subset:ident, $is_disjoint:ident, $has_same_keys:ident;
        $error:ty, $of:path, $end:path; $errors:literal, $sample:literal
    ) => {
        impl<$($param: $bound),+> $array<$($param),+> {
            /// The array that a call of C makes in place of the empty one.
            fn made_by(
                call: impl FnOnce(&mut sellumaq_sys::$handle) -> u32,
            ) -> Result<Self, crate::InsertError> {
                let mut made = Self::empty();
                match call(&mut made.handle) {
                    sellumaq_sys::SELLUMAQ_DONE => Ok(made),
                    told => Err(crate::InsertError::of(told)),
                }
            }

            /// The array that a call of C makes of this one and another, which isn't the same.
            fn made_with(
                &self,
                other: &Self,
                call: unsafe extern "C" fn(
                    *mut sellumaq_sys::$handle,
                    *const sellumaq_sys::$handle,
                    *const sellumaq_sys::$handle,
                ) -> u32,
            ) -> Result<Self, $error> {
                let (one, other) = (self.handle, other.handle);
                // SAFETY: the handles are three arrays', lent for this call alone, which changes only the new one.
                let made = Self::made_by(|made| unsafe { call(made, &one, &other) });
                made.map_err($of)
            }

            fn try_copy(&self) -> Result<Self, $error> {
                let from = self.handle;
                // SAFETY: the handles are two arrays', lent for this call alone, which changes only the new one.
                let made = Self::made_by(|made| unsafe { sellumaq_sys::$copy(made, &from) });
                made.map_err($of)
            }

            /// Whether it is the other array itself. A call of C is never handed one array twice.
            fn is(&self, other: &Self) -> bool {
                std::ptr::eq(self, other)
            }

            /// Whether its keys are so few that to look them up in the other array takes less time than a walk over
            /// that.
            fn is_few_beside(&self, other: &Self) -> bool {
                self.len() < other.len() / crate::two::MANY
            }

            /// What it holds of keys that the other has, or lacks: each is looked up.
            fn looked_up<'a>(
                &'a self,
                other: &'a Self,
                there: bool,
            ) -> impl Iterator<Item = $item> + 'a {
                self.iter().filter(move |$it| other.$has($key) == there)
            }

            /// An array of the keys of either, each with the first one's value where that has it: what `|` makes.
            ///
            /// # Errors
            ///
            #[doc = $errors]
            ///
            /// ```
            #[doc = $sample]
            /// assert_eq!(a.try_union(&b), Ok(&a | &b));
            /// ```
            pub fn try_union(&self, other: &Self) -> Result<Self, $error> {
                if self.is(other) {
                    return self.try_copy();
                }
                self.made_with(other, sellumaq_sys::$union)
            }

            /// An array of the keys of both, each with the first one's value: what `&` makes.
            ///
            /// # Errors
            ///
            #[doc = $errors]
            ///
            /// ```
            #[doc = $sample]
            /// assert_eq!(a.try_intersection(&b), Ok(&a & &b));
            /// ```
            pub fn try_intersection(&self, other: &Self) -> Result<Self, $error> {
                if self.is(other) {
                    return self.try_copy();
                }
                self.made_with(other, sellumaq_sys::$intersection)
            }

            /// An array of the keys of the first alone, with their values: what `-` makes.
            ///
            /// # Errors
            ///
            #[doc = $errors]
            ///
            /// ```
            #[doc = $sample]
            /// assert_eq!(a.try_difference(&b), Ok(&a - &b));
            /// ```
            pub fn try_difference(&self, other: &Self) -> Result<Self, $error> {
                if self.is(other) {
                    return Ok(Self::empty());
                }
                if self.is_few_beside(other) {
                    return self.few_lacking(other).map_err($of);
                }
                self.made_with(other, sellumaq_sys::$difference)
            }

            /// An array of the keys of one alone, with their values: what `^` makes.
            ///
            /// # Errors
            ///
            #[doc = $errors]
            ///
            /// ```
            #[doc = $sample]
            /// assert_eq!(a.try_symmetric_difference(&b), Ok(&a ^ &b));
            /// ```
            pub fn try_symmetric_difference(&self, other: &Self) -> Result<Self, $error> {
                if self.is(other) {
                    return Ok(Self::empty());
                }
                self.made_with(other, sellumaq_sys::$symmetric_difference)
            }

            fn joined(&self, other: &Self) -> Self {
                self.try_union(other).unwrap_or_else($end)
            }

            fn common(&self, other: &Self) -> Self {
                // C's call over strings goes through all keys of the first.
                if other.is_few_beside(self) {
                    return other.iter().filter_map(|$it| self.$get($key)).collect();
                }
                self.try_intersection(other).unwrap_or_else($end)
            }

            fn lacking(&self, other: &Self) -> Self {
                self.try_difference(other).unwrap_or_else($end)
            }

            fn apart(&self, other: &Self) -> Self {
                self.try_symmetric_difference(other).unwrap_or_else($end)
            }

            fn join(&mut self, other: &Self) {
                if !other.is_few_beside(self) {
                    *self = self.joined(other);
                    return;
                }
                for $it in other {
                    if !self.$has($key) {
                        self.extend([$it]);
                    }
                }
            }

            fn keep_common(&mut self, other: &Self) {
                *self = self.common(other);
            }

            fn take_out(&mut self, other: &Self) {
                if other.is_few_beside(self) {
                    for $it in other {
                        self.remove($key);
                    }
                } else {
                    *self = self.lacking(other);
                }
            }

            fn keep_apart(&mut self, other: &Self) {
                if !other.is_few_beside(self) {
                    *self = self.apart(other);
                    return;
                }
                for $it in other {
                    if self.$has($key) {
                        self.remove($key);
                    } else {
                        self.extend([$it]);
                    }
                }
            }

            /// How many keys are in both.
            ///
            /// ```
            #[doc = $sample]
            /// assert_eq!(a.intersection_len(&b), 1);
            /// ```
            #[must_use]
            pub fn intersection_len(&self, other: &Self) -> usize {
                if self.is(other) {
                    return self.len();
                }
                if self.is_few_beside(other) {
                    return self.looked_up(other, true).count();
                }
                if other.is_few_beside(self) {
                    return other.looked_up(self, true).count();
                }
                let (one, other) = (self.handle, other.handle);
                // SAFETY: the handles are two arrays', lent for this call alone, which only reads.
                let common = unsafe { sellumaq_sys::$common_len(&one, &other) };
                common as usize
            }

            /// How many keys are in either.
            ///
            /// ```
            #[doc = $sample]
            /// assert_eq!(a.union_len(&b), 3);
            /// ```
            #[must_use]
            pub fn union_len(&self, other: &Self) -> usize {
                self.len() + other.difference_len(self)
            }

            /// How many keys the other lacks.
            ///
            /// ```
            #[doc = $sample]
            /// assert_eq!(a.difference_len(&b), 1);
            /// ```
            #[must_use]
            pub fn difference_len(&self, other: &Self) -> usize {
                self.len() - self.intersection_len(other)
            }

            /// How many keys are in one of the two alone.
            ///
            /// ```
            #[doc = $sample]
            /// assert_eq!(a.symmetric_difference_len(&b), 2);
            /// ```
            #[must_use]
            pub fn symmetric_difference_len(&self, other: &Self) -> usize {
                let common = self.intersection_len(other);
                (self.len() - common) + (other.len() - common)
            }

            /// Whether no key is in both.
            ///
            /// ```
            #[doc = $sample]
            /// assert!(!a.is_disjoint(&b) && (&a - &b).is_disjoint(&b));
            /// ```
            #[must_use]
            pub fn is_disjoint(&self, other: &Self) -> bool {
                if self.is(other) {
                    return self.is_empty();
                }
                if self.is_few_beside(other) {
                    return self.looked_up(other, true).next().is_none();
                }
                if other.is_few_beside(self) {
                    return other.looked_up(self, true).next().is_none();
                }
                let (one, other) = (self.handle, other.handle);
                // SAFETY: as in `intersection_len`.
                unsafe { sellumaq_sys::$is_disjoint(&one, &other) }
            }

            /// Whether each key is one of the other's.
            ///
            /// ```
            #[doc = $sample]
            /// assert!(!a.is_subset(&b) && (&a & &b).is_subset(&b));
            /// ```
            #[must_use]
            pub fn is_subset(&self, other: &Self) -> bool {
                if self.is(other) || self.len() > other.len() {
                    return self.is(other);
                }
                if self.is_few_beside(other) {
                    return self.looked_up(other, false).next().is_none();
                }
                let (one, other) = (self.handle, other.handle);
                // SAFETY: as in `intersection_len`.
                unsafe { sellumaq_sys::$is_subset(&one, &other) }
            }

            /// Whether each key of the other is one of this.
            ///
            /// ```
            #[doc = $sample]
            /// assert!(!a.is_superset(&b) && (&a | &b).is_superset(&b));
            /// ```
            #[must_use]
            pub fn is_superset(&self, other: &Self) -> bool {
                other.is_subset(self)
            }

            /// Whether both have the same keys, whatever their values are.
            ///
            /// ```
            #[doc = $sample]
            /// assert!(!a.has_same_keys(&b) && a.has_same_keys(&a.clone()));
            /// ```
            #[must_use]
            pub fn has_same_keys(&self, other: &Self) -> bool {
                if self.is(other) || self.len() != other.len() {
                    return self.is(other);
                }
                let (one, other) = (self.handle, other.handle);
                // SAFETY: as in `intersection_len`.
                unsafe { sellumaq_sys::$has_same_keys(&one, &other) }
            }
        }

        impl<$($param: $bound),+> Clone for $array<$($param),+> {
            fn clone(&self) -> Self {
                self.try_copy().unwrap_or_else($end)
            }
        }

        crate::two::sign!(
            [$($param: $bound),+], $array<$($param),+>; $sample;
            BitOr, bitor by joined; BitOrAssign, bitor_assign by join; "|", "either", 3
        );
        crate::two::sign!(
            [$($param: $bound),+], $array<$($param),+>; $sample;
            BitAnd, bitand by common; BitAndAssign, bitand_assign by keep_common; "&", "both", 1
        );
        crate::two::sign!(
            [$($param: $bound),+], $array<$($param),+>; $sample;
            Sub, sub by lacking; SubAssign, sub_assign by take_out; "-", "the first alone", 1
        );
        crate::two::sign!(
            [$($param: $bound),+], $array<$($param),+>; $sample;
            BitXor, bitxor by apart; BitXorAssign, bitxor_assign by keep_apart; "^", "one alone", 2
        );
    };
}

/// Writes a sign of `$array`s that are lent or given away, and the one that changes the first.
macro_rules! sign {
    (
        [$($param:ident: $bound:path),+], $array:ty; $sample:literal;
        $sign:ident, $call:ident by $made:ident; $assign:ident, $assign_call:ident by $change:ident; $text:literal, $of:literal, $len:literal
    ) => {
        impl<$($param: $bound),+> std::ops::$sign for &$array {
            type Output = $array;

            #[doc = concat!("The keys of ", $of, ", each with the first one's value where that has it: `a ", $text, " b`.\n\n```\n", $sample)]
            #[doc = concat!("assert_eq!((&a ", $text, " &b).len(), ", $len, ");\n```")]
            fn $call(self, other: Self) -> $array {
                self.$made(other)
            }
        }

        impl<$($param: $bound),+> std::ops::$sign<$array> for &$array {
            type Output = $array;

            #[doc = concat!("The keys of ", $of, ", each with the first one's value where that has it: `a ", $text, " b`.\n\n```\n", $sample)]
            #[doc = concat!("assert_eq!((&a ", $text, " &b).len(), ", $len, ");\n```")]
            fn $call(self, other: $array) -> $array {
                self.$made(&other)
            }
        }

        impl<$($param: $bound),+> std::ops::$sign<&$array> for $array {
            type Output = $array;

            #[doc = concat!("The keys of ", $of, ", each with the first one's value where that has it: `a ", $text, " b`.\n\n```\n", $sample)]
            #[doc = concat!("assert_eq!((&a ", $text, " &b).len(), ", $len, ");\n```")]
            fn $call(mut self, other: &$array) -> $array {
                self.$change(other);
                self
            }
        }

        impl<$($param: $bound),+> std::ops::$sign for $array {
            type Output = $array;

            #[doc = concat!("The keys of ", $of, ", each with the first one's value where that has it: `a ", $text, " b`.\n\n```\n", $sample)]
            #[doc = concat!("assert_eq!((&a ", $text, " &b).len(), ", $len, ");\n```")]
            fn $call(mut self, other: $array) -> $array {
                self.$change(&other);
                self
            }
        }

        impl<$($param: $bound),+> std::ops::$assign<&$array> for $array {
            #[doc = concat!("Leaves the keys that `", $text, "` tells.\n\n```\n", $sample, "\nlet mut made = a.clone();")]
            #[doc = concat!("made ", $text, "= &b;\nassert_eq!(made, a ", $text, " b);\n```")]
            fn $assign_call(&mut self, other: &$array) {
                self.$change(other);
            }
        }

        impl<$($param: $bound),+> std::ops::$assign for $array {
            #[doc = concat!("Leaves the keys that `", $text, "` tells.\n\n```\n", $sample, "\nlet mut made = a.clone();")]
            #[doc = concat!("made ", $text, "= &b;\nassert_eq!(made, a ", $text, " b);\n```")]
            fn $assign_call(&mut self, other: $array) {
                self.$change(&other);
            }
        }
    };
}

pub(crate) use {of_two, sign};
