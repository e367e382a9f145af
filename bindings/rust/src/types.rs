//! What keys and values may be: what fits a word of 64 bits.
// Integers of all sizes are cast by the same lines. What a cast cuts off are zeros, and a sign that it turns is turned
// back.
#![allow(
    clippy::cast_lossless,
    clippy::cast_possible_wrap,
    clippy::cast_sign_loss
)]

use std::fmt::Debug;
use std::hash::Hash;
use std::mem::{align_of, size_of};
use std::num::{NonZeroI16, NonZeroI32, NonZeroI64, NonZeroI8, NonZeroIsize};
use std::num::{NonZeroU16, NonZeroU32, NonZeroU64, NonZeroU8, NonZeroUsize};

#[cfg(not(all(target_endian = "little", target_pointer_width = "64")))]
compile_error!("values that are less than a word stand in its first bytes: this needs a little-endian machine of 64 bits");

/// What a key of a [`Judy1`](crate::Judy1) or a [`JudyL`](crate::JudyL) may be: an integer of any size. Keys are in
/// their own order, negative ones before the others.
///
/// The library's keys are words, in the order of unsigned numbers. A key is the word that tells how far it is above the
/// least one of its type, so that a `u64` is itself.
///
/// ```
/// let set: sellumaq::Judy1<i8> = [5, -128, 0, -1].into_iter().collect();
/// assert!(set.iter().eq([-128, -1, 0, 5]));
/// assert_eq!((set.rank(0), set.at_or_before(-2)), (2, Some(-128)));
/// ```
pub trait Key: sealed::Key + Copy + Ord + Hash + Debug + Send + Sync + 'static {}

/// What a value of a map may be: an integer of any size, a `bool`, a `char`, an integer that is never zero, or an
/// `Option` of such a one. It takes a word in the map.
///
/// Other `Option`s are none, since the language doesn't say how they stand in memory; nor are floating point numbers,
/// since they have no order, and so maps of them had none.
///
/// ```
/// use std::num::NonZeroU32;
///
/// let mut map: sellumaq::JudyL<Option<NonZeroU32>> = (0..3).map(|n| (n, NonZeroU32::new(n as u32))).collect();
/// assert_eq!((map.get(0), map.get(3)), (Some(None), None));
/// *map.get_mut(2).unwrap() = None;
/// assert!(map.values().eq([None, NonZeroU32::new(1), None]));
/// ```
pub trait Value: sealed::Value + Copy + Ord + Hash + Debug + Send + Sync + 'static {}

/// A value whose default is all zeros, as that of a key is which the library puts in: each but the integers that are
/// never zero.
///
/// ```
/// let mut flags = sellumaq::JudyL::<bool>::empty();
/// assert!(!*flags.slot(5).unwrap());
/// ```
pub trait ZeroValue: sealed::ZeroValue + Value + Default {}

/// What no other crate can say of its types.
mod sealed {
    pub trait Key {
        /// The word of the greatest key; that of the least is 0.
        const LAST: u64;

        /// The word that a key is to the library.
        fn word(self) -> u64;

        /// The key that is a word up to the last one.
        fn of_word(word: u64) -> Self;
    }

    /// # Safety
    ///
    /// A value has at most the bytes and the alignment of a word, and no byte of it is padding. It stands in the first
    /// bytes of the word that `bits` answers.
    pub unsafe trait Value {
        /// Whether each word holds a value.
        const EACH: bool = false;

        /// Whether a word holds a value, with zeros beyond it.
        fn is_held(bits: u64) -> bool;

        /// The word that holds a value.
        fn bits(self) -> u64;

        /// The value that a word holds.
        fn of_bits(bits: u64) -> Self;
    }

    /// # Safety
    ///
    /// The word 0 holds a value, the default.
    pub unsafe trait ZeroValue {}
}

macro_rules! value {
    ($type:ty; $value:ident => $to:expr; $bits:ident => $from:expr, if $held:expr $(, each $each:expr)?) => {
        const _: () = assert!(size_of::<$type>() <= 8 && align_of::<$type>() <= 8);

        // SAFETY: that it fits is asserted above. It is an integer or stands in memory as one, which has no padding. On
        // a little-endian machine the first bytes of a word are its lowest, which the integer fills by `bits`.
        unsafe impl sealed::Value for $type {
            $(const EACH: bool = $each;)?

            #[inline]
            fn is_held($bits: u64) -> bool {
                $held
            }

            #[inline]
            fn bits(self) -> u64 {
                let $value = self;
                $to
            }

            #[inline]
            fn of_bits($bits: u64) -> $type {
                $from
            }
        }

        impl Value for $type {}
    };
}

macro_rules! zero_value {
    ($($type:ty),*) => { $(
        // SAFETY: 0 is the number 0, false, the first character, or the `None` of an integer that is never zero, each
        // the default.
        unsafe impl sealed::ZeroValue for $type {}

        impl ZeroValue for $type {}
    )* };
}

/// Writes what an integer is as a key and a value, and the one beside it that is never zero as a value.
macro_rules! integers {
    ($($integer:ident as $unsigned:ident, $non_zero:ident;)*) => { $(
        impl sealed::Key for $integer {
            const LAST: u64 = $unsigned::MAX as u64;

            #[inline]
            fn word(self) -> u64 {
                self.wrapping_sub($integer::MIN) as $unsigned as u64
            }

            #[inline]
            fn of_word(word: u64) -> $integer {
                (word as $integer).wrapping_add($integer::MIN)
            }
        }

        impl Key for $integer {}

        value!(
            $integer; value => value as $unsigned as u64; bits => bits as $integer,
            if $unsigned::try_from(bits).is_ok(), each size_of::<$integer>() == 8
        );
        value!($non_zero; value => value.get() as $unsigned as u64; bits => {
            $non_zero::new(bits as $integer).expect("a value that is never zero")
        }, if bits > 0 && $unsigned::try_from(bits).is_ok());
        value!(
            Option<$non_zero>; value => value.map_or(0, sealed::Value::bits); bits => $non_zero::new(bits as $integer),
            if $unsigned::try_from(bits).is_ok(), each size_of::<$integer>() == 8
        );
        zero_value!($integer, Option<$non_zero>);
    )* };
}

integers! {
    u8 as u8, NonZeroU8;
    u16 as u16, NonZeroU16;
    u32 as u32, NonZeroU32;
    u64 as u64, NonZeroU64;
    usize as usize, NonZeroUsize;
    i8 as u8, NonZeroI8;
    i16 as u16, NonZeroI16;
    i32 as u32, NonZeroI32;
    i64 as u64, NonZeroI64;
    isize as usize, NonZeroIsize;
}

value!(bool; value => u64::from(value); bits => bits != 0, if bits <= 1);
value!(
    char; value => u64::from(value); bits => char::from_u32(bits as u32).expect("a character"),
    if u32::try_from(bits).map_or(false, |it| char::from_u32(it).is_some())
);
zero_value!(bool, char);
