//! What arrays of all kinds have alike.

/// Writes the type of a kind of array over its handle in C, `$handle`, and the calls by which C tells its length and
/// its memory, and gives it back. `$sample` is a line of an example that makes `array` with three keys.
macro_rules! array {
    (
        $(#[$about:meta])*
        $array:ident<$($param:ident: $bound:path = $default:ty),+> over $handle:ident, $len:ident, $bytes:ident, $free:ident; $sample:literal
    ) => {
        $(#[$about])*
        pub struct $array<$($param: $bound = $default),+> {
            handle: sellumaq_sys::$handle,
            of: std::marker::PhantomData<($($param,)+)>,
        }

        // SAFETY: an array is reached by its handle alone, which has one owner, and its memory is malloc's, which any
        // thread may give back.
        unsafe impl<$($param: $bound),+> Send for $array<$($param),+> {}

        // SAFETY: by a shared reference only calls that read are made, each with a copy of the handle's word. They
        // store nothing in the array: the library reaches it by shared references, or, where it finds a slot, by ones
        // that it only hands on. This rests on reading its source, and on a run of threads under helgrind; its proofs
        // speak of what a call leaves, not of what it stores meanwhile.
        unsafe impl<$($param: $bound),+> Sync for $array<$($param),+> {}

        impl $array {
            /// The empty array, which takes no memory. An array of other types than `u64` is made by
            /// [`empty`](Self::empty), by `default` or by `collect`.
            ///
            /// ```
            #[doc = concat!("let array = sellumaq::", stringify!($array), "::new();")]
            /// assert!(array.is_empty());
            /// ```
            #[must_use]
            pub const fn new() -> Self {
                Self::empty()
            }
        }

        impl<$($param: $bound),+> $array<$($param),+> {
            /// The empty array of any types.
            ///
            /// ```
            #[doc = concat!("static ARRAY: sellumaq::", stringify!($array), "<i32> = sellumaq::", stringify!($array), "::empty();")]
            /// assert!(ARRAY.is_empty());
            /// ```
            #[must_use]
            pub const fn empty() -> Self {
                $array {
                    handle: sellumaq_sys::$handle { array: std::ptr::null_mut() },
                    of: std::marker::PhantomData,
                }
            }

            /// How many keys there are. No way through them is made.
            ///
            /// ```
            #[doc = $sample]
            /// assert_eq!(array.len(), 3);
            /// ```
            #[must_use]
            pub fn len(&self) -> usize {
                let handle = self.handle;
                // SAFETY: the handle is this array's, lent for this call alone, which only reads.
                let keys = unsafe { sellumaq_sys::$len(&handle) };
                keys as usize
            }

            /// Whether there is no key.
            ///
            /// ```
            #[doc = $sample]
            /// assert!(!array.is_empty());
            /// ```
            #[must_use]
            pub fn is_empty(&self) -> bool {
                self.len() == 0
            }

            /// How many bytes of heap memory the array takes, as they were asked for, without what `malloc` takes
            /// beside each block: none before the first insert, nor after [`clear`](Self::clear). It goes over all
            /// nodes, and over the pages of strings. The number is tested and not proved; a `JudyHs` of hundreds of
            /// thousands of keys may take a little more.
            ///
            /// ```
            #[doc = concat!("assert_eq!(sellumaq::", stringify!($array), "::new().bytes(), 0);")]
            #[doc = concat!($sample, "\nlet mut array = array;")]
            /// assert!(array.bytes() > 0);
            /// array.clear();
            /// assert_eq!(array.bytes(), 0);
            /// ```
            #[must_use]
            pub fn bytes(&self) -> usize {
                let handle = self.handle;
                // SAFETY: the handle is this array's, lent for this call alone, which only reads.
                let bytes = unsafe { sellumaq_sys::$bytes(&handle) };
                bytes as usize
            }

            /// Takes every key out and gives the memory back.
            ///
            /// ```
            #[doc = concat!($sample, "\nlet mut array = array;")]
            /// array.clear();
            /// assert!(array.is_empty());
            /// ```
            pub fn clear(&mut self) {
                // SAFETY: the handle is this array's, lent for this call alone; it is the empty array's after it.
                unsafe { sellumaq_sys::$free(&mut self.handle) };
            }
        }

        impl<$($param: $bound),+> Drop for $array<$($param),+> {
            fn drop(&mut self) {
                self.clear();
            }
        }

        impl<$($param: $bound),+> Default for $array<$($param),+> {
            fn default() -> Self {
                Self::empty()
            }
        }
    };
}

pub(crate) use array;
