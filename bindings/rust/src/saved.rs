//! Arrays as bytes and in files.
use crate::NoMemory;
use sellumaq_sys as sys;
use std::ffi::{CStr, CString};
use std::os::unix::ffi::OsStrExt;
use std::path::Path;
use std::{error, fmt, io};

/// The format of the bytes, and the array's name in them.
pub(crate) const FORMAT: u32 = 2;
pub(crate) const NAME: &[u8] = b"array";

/// Why bytes are no dump of one array of these types: the first fault, in the order of their fields.
///
/// ```
/// use sellumaq::{Judy1, JudyL, LoadFault};
///
/// let bytes = JudyL::from([(1, 10)]).to_bytes().unwrap();
/// assert_eq!(<JudyL>::from_bytes(&bytes[1..]), Err(LoadFault::BadMagic));
/// assert_eq!(<Judy1>::from_bytes(&bytes), Err(LoadFault::OtherKind));
/// assert_eq!(LoadFault::OtherKind.to_string(), "other-kind: the dump is of an array of another kind");
/// ```
#[derive(Clone, Copy, PartialEq, Eq, Hash, Debug)]
#[non_exhaustive]
pub enum LoadFault {
    /// The bytes end within the dump.
    Truncated,
    /// They don't begin with `JDY1` or `JDY2`.
    BadMagic,
    /// There are more arrays than 64.
    TooMany,
    /// The name of an array isn't one.
    BadName,
    /// Two arrays have one name. Of a load of one array `NotOne` comes before it.
    SameName,
    /// The kind of an array is unknown.
    BadKind,
    /// The limit of an array is 0, or above 4,294,967,295.
    BadLimit,
    /// An array has more keys than its limit.
    BadCount,
    /// The bytes of a string are no key.
    BadKey,
    /// The keys of an array don't ascend.
    BadOrder,
    /// Bytes follow the last array.
    Trailing,
    /// A string shares another front with the one before it than is told.
    BadPrefix,
    /// The dump is of no array, or of several.
    NotOne,
    /// The dump is of an array of another kind.
    OtherKind,
    /// A word of the dump is no key or no value of these types, as 256 is no `u8`.
    OtherTypes,
    /// There is no memory for the array.
    NoMemory,
}

/// The faults that C tells, each at the place of its number, which begins with 1.
const TOLD: [LoadFault; 14] = [
    LoadFault::Truncated,
    LoadFault::BadMagic,
    LoadFault::TooMany,
    LoadFault::BadName,
    LoadFault::SameName,
    LoadFault::BadKind,
    LoadFault::BadLimit,
    LoadFault::BadCount,
    LoadFault::BadKey,
    LoadFault::BadOrder,
    LoadFault::Trailing,
    LoadFault::BadPrefix,
    LoadFault::NotOne,
    LoadFault::OtherKind,
];

impl LoadFault {
    /// What `load` and `open` answer where nothing of the system failed.
    pub(crate) fn check(told: u32, fault: u32) -> Result<(), LoadFault> {
        match told {
            sys::SELLUMAQ_DONE => Ok(()),
            sys::SELLUMAQ_NO_MEMORY => Err(LoadFault::NoMemory),
            _ => Err(TOLD[(fault - 1) as usize]),
        }
    }
}

impl fmt::Display for LoadFault {
    fn fmt(&self, to: &mut fmt::Formatter<'_>) -> fmt::Result {
        let number = match self {
            LoadFault::OtherTypes => {
                return to.write_str("other-types: a word is no key or no value of these types")
            }
            LoadFault::NoMemory => return to.write_str("no-memory: there is none for the array"),
            told => *told as u32 + 1,
        };
        // SAFETY: the call answers a text of C, which is never freed.
        let text = unsafe { CStr::from_ptr(sys::sellumaq_fault_text(number)) };
        to.write_str(&text.to_string_lossy())
    }
}

impl error::Error for LoadFault {}

/// Why there are no bytes of an array.
///
/// ```
/// use sellumaq::{DumpFault, JudyHs};
///
/// assert_eq!(JudyHs::from([([0; 1025], 1)]).to_bytes(), Err(DumpFault::BadKey));
/// ```
#[derive(Clone, Copy, PartialEq, Eq, Hash, Debug)]
#[non_exhaustive]
pub enum DumpFault {
    /// There are more than 4,294,967,295 keys, which no dump can say.
    TooMany,
    /// A key of strings or byte strings has more than [`MAX_SAVED_KEY`](crate::MAX_SAVED_KEY) bytes, which no dump can
    /// say.
    BadKey,
    /// There is no memory for the bytes.
    NoMemory,
}

impl DumpFault {
    pub(crate) fn check(told: u32) -> Result<(), DumpFault> {
        match told {
            sys::SELLUMAQ_DONE => Ok(()),
            sys::SELLUMAQ_TOO_MANY => Err(DumpFault::TooMany),
            sys::SELLUMAQ_BAD_KEY => Err(DumpFault::BadKey),
            _ => Err(DumpFault::NoMemory),
        }
    }
}

impl fmt::Display for DumpFault {
    fn fmt(&self, to: &mut fmt::Formatter<'_>) -> fmt::Result {
        to.write_str(match self {
            DumpFault::TooMany => "more keys than a dump can say, 4,294,967,295",
            DumpFault::BadKey => "a key of more bytes than a dump can say, 1,024",
            DumpFault::NoMemory => "no memory for the bytes",
        })
    }
}

impl error::Error for DumpFault {}

/// Writes an error that is a fault or one of a read or write.
macro_rules! or_of_io {
    ($(#[$about:meta])* $name:ident of $fault:ident, as $kind:ident) => {
        $(#[$about])*
        #[derive(Debug)]
        pub enum $name {
            /// What the library tells.
            Fault($fault),
            /// What the system, the reader or the writer tells.
            Io(io::Error),
        }

        impl fmt::Display for $name {
            fn fmt(&self, to: &mut fmt::Formatter<'_>) -> fmt::Result {
                match self {
                    $name::Fault(fault) => fault.fmt(to),
                    $name::Io(error) => error.fmt(to),
                }
            }
        }

        impl error::Error for $name {
            fn source(&self) -> Option<&(dyn error::Error + 'static)> {
                match self {
                    $name::Fault(_) => None,
                    $name::Io(error) => error.source(),
                }
            }
        }

        impl From<$fault> for $name {
            fn from(fault: $fault) -> $name {
                $name::Fault(fault)
            }
        }

        impl From<io::Error> for $name {
            fn from(error: io::Error) -> $name {
                $name::Io(error)
            }
        }

        impl From<$name> for io::Error {
            fn from(error: $name) -> io::Error {
                match error {
                    $name::Fault($fault::NoMemory) => io::ErrorKind::OutOfMemory.into(),
                    $name::Fault(fault) => io::Error::new(io::ErrorKind::$kind, fault),
                    $name::Io(error) => error,
                }
            }
        }
    };
}

or_of_io!(
    /// Why no array was read. By `?` it becomes an `io::Error`, of the kind `InvalidData` where it is a fault.
    ///
    /// ```
    /// use sellumaq::{JudyL, LoadError, LoadFault};
    ///
    /// let told = <JudyL>::read_from(&b"JDY1"[..]);
    /// assert!(matches!(told, Err(LoadError::Fault(LoadFault::Truncated))));
    /// ```
    LoadError of LoadFault, as InvalidData
);

or_of_io!(
    /// Why no array was written. By `?` it becomes an `io::Error`, of the kind `InvalidInput` where it is a fault.
    ///
    /// ```
    /// use sellumaq::{Judy1, SaveError};
    ///
    /// let told = Judy1::from([1, 2]).save("/nowhere/words");
    /// assert!(matches!(told, Err(SaveError::Io(error)) if error.kind() == std::io::ErrorKind::NotFound));
    /// ```
    SaveError of DumpFault, as InvalidInput
);

/// An array that was loaded, of words that may be any.
pub(crate) trait OfTypes: Sized {
    /// Whether its words are keys and values of its types.
    fn is_of_types(&self) -> Result<bool, NoMemory>;

    /// The array, where they are. Before that nobody else may see it.
    fn of_types(self) -> Result<Self, LoadFault> {
        match self.is_of_types() {
            Ok(true) => Ok(self),
            Ok(false) => Err(LoadFault::OtherTypes),
            Err(NoMemory) => Err(LoadFault::NoMemory),
        }
    }
}

/// A path as C takes it.
pub(crate) fn path_of(path: &Path) -> io::Result<CString> {
    Ok(CString::new(path.as_os_str().as_bytes())?)
}

/// What a dump writes to so many bytes of room, of which it tells how many it needs or has written.
pub(crate) fn dumped(
    size: impl FnOnce(&mut usize) -> u32,
    dump: impl FnOnce(*mut u8, usize, &mut usize) -> u32,
) -> Result<Vec<u8>, DumpFault> {
    let (mut bytes, mut count) = (Vec::new(), 0);
    DumpFault::check(size(&mut count))?;
    bytes
        .try_reserve_exact(count)
        .map_err(|_| DumpFault::NoMemory)?;
    DumpFault::check(dump(bytes.as_mut_ptr(), bytes.capacity(), &mut count))?;
    // SAFETY: the dump has written so many bytes.
    unsafe { bytes.set_len(count) };
    Ok(bytes)
}

/// Writes how an `$array` is turned to bytes and made of them, over the calls of C named. `$sample` is a line of an
/// example that makes `array`, and `$type` its type.
macro_rules! saved {
    (
        $array:ident<$($param:ident: $bound:path),+>; $dump:ident, $dump_size:ident, $load:ident, $save:ident, $open:ident;
        $sample:literal, $type:literal
    ) => {
        impl<$($param: $bound),+> $array<$($param),+> {
            /// The array as bytes, which [`from_bytes`](Self::from_bytes) reads: its dump in the format `JDY2`, under
            /// the name `array`, as the program judystore reads and writes it too. Arrays of the same keys and values
            /// have the same bytes, on each machine. Keys and values are words there, as [`Key`](crate::Key) and
            /// [`Value`](crate::Value) tell; their types are no part of it.
            ///
            /// # Errors
            ///
            /// [`DumpFault`](crate::DumpFault) tells why no dump can say the array, or that there is no memory for the
            /// bytes.
            ///
            /// ```
            #[doc = $sample]
            /// let bytes = array.to_bytes().unwrap();
            #[doc = concat!("assert_eq!(", $type, "::from_bytes(&bytes), Ok(array));")]
            /// ```
            pub fn to_bytes(&self) -> Result<Vec<u8>, crate::DumpFault> {
                use crate::saved::{FORMAT, NAME};
                let (handle, name, length) = (self.handle, NAME.as_ptr(), NAME.len());
                crate::saved::dumped(
                    // SAFETY: the handle is this array's, lent for this call alone, which only reads; the name is a
                    // slice's.
                    |size| unsafe { sellumaq_sys::$dump_size(&handle, FORMAT, name, length, size) },
                    // SAFETY: as above, and there is as much room as is told.
                    |bytes, room, size| unsafe {
                        sellumaq_sys::$dump(&handle, FORMAT, name, length, bytes, room, size)
                    },
                )
            }

            /// The array of which these bytes are the dump, in either format and under any name: those of
            /// [`to_bytes`](Self::to_bytes), of C and Python, or of judystore. The bytes may be anything: memory is
            /// asked for by the keys that were read, and never by a number that they say.
            ///
            /// # Errors
            ///
            /// [`LoadFault`](crate::LoadFault) tells the first fault, or that there is no memory.
            ///
            /// ```
            #[doc = concat!("let told = ", $type, "::from_bytes(b\"JDY3\");")]
            /// assert_eq!(told, Err(sellumaq::LoadFault::BadMagic));
            /// ```
            pub fn from_bytes(bytes: impl AsRef<[u8]>) -> Result<Self, crate::LoadFault> {
                let (mut array, bytes, mut fault) = (Self::empty(), bytes.as_ref(), 0);
                let handle = &mut array.handle;
                // SAFETY: the handle is a new array's, lent for this call alone; the bytes are a slice's, and the fault
                // this function's.
                let told = unsafe {
                    sellumaq_sys::$load(handle, bytes.as_ptr(), bytes.len(), &mut fault)
                };
                crate::LoadFault::check(told, fault)?;
                array.of_types()
            }

            /// Writes the bytes of [`to_bytes`](Self::to_bytes), which are made in memory first.
            ///
            /// # Errors
            ///
            /// [`SaveError`](crate::SaveError) tells why there are no bytes, or what the writer told; some may have
            /// been written then.
            ///
            /// ```
            #[doc = $sample]
            /// let mut written = Vec::new();
            /// array.write_to(&mut written).unwrap();
            /// assert_eq!(written, array.to_bytes().unwrap());
            /// ```
            pub fn write_to(&self, mut to: impl std::io::Write) -> Result<(), crate::SaveError> {
                Ok(to.write_all(&self.to_bytes()?)?)
            }

            /// The array of which all that a reader gives is the dump, as [`from_bytes`](Self::from_bytes) makes it.
            ///
            /// # Errors
            ///
            /// [`LoadError`](crate::LoadError) tells the first fault, or what the reader told.
            ///
            /// ```
            #[doc = $sample]
            /// let bytes = array.to_bytes().unwrap();
            #[doc = concat!("assert_eq!(", $type, "::read_from(&bytes[..]).unwrap(), array);")]
            /// ```
            pub fn read_from(mut from: impl std::io::Read) -> Result<Self, crate::LoadError> {
                let mut bytes = Vec::new();
                from.read_to_end(&mut bytes)?;
                Ok(Self::from_bytes(bytes)?)
            }

            /// Saves the bytes of [`to_bytes`](Self::to_bytes) to a file, in place of an old one. They are written to a
            /// file beside, which takes the old one's name and permissions when the disk has all of it. So whoever
            /// opens the path finds the one or the other, whole.
            ///
            /// # Errors
            ///
            /// [`SaveError`](crate::SaveError) tells why there are no bytes, or what the system told. The old file is
            /// as it was then.
            ///
            /// ```
            #[doc = $sample]
            #[doc = concat!("let path = std::env::temp_dir().join(format!(\"", stringify!($array), " {}\", std::process::id()));")]
            /// array.save(&path)?;
            #[doc = concat!("assert_eq!(", $type, "::load(&path)?, array);")]
            /// # std::fs::remove_file(path)?;
            /// # Ok::<(), Box<dyn std::error::Error>>(())
            /// ```
            pub fn save(&self, path: impl AsRef<std::path::Path>) -> Result<(), crate::SaveError> {
                let (handle, path) = (self.handle, crate::saved::path_of(path.as_ref())?);
                // SAFETY: the handle is this array's, lent for this call alone, which only reads; the path is a string
                // of C.
                match unsafe { sellumaq_sys::$save(&handle, path.as_ptr()) } {
                    sellumaq_sys::SELLUMAQ_SYSTEM => Err(std::io::Error::last_os_error().into()),
                    told => Ok(crate::DumpFault::check(told)?),
                }
            }

            /// The array that was saved to a file, by any of the languages or by judystore. The file is read into
            /// memory first.
            ///
            /// # Errors
            ///
            /// [`LoadError`](crate::LoadError) tells the first fault, or what the system told.
            ///
            /// ```
            #[doc = concat!("let told = ", $type, "::load(\"/nowhere/words\");")]
            /// assert!(matches!(told, Err(sellumaq::LoadError::Io(_))));
            /// ```
            pub fn load(path: impl AsRef<std::path::Path>) -> Result<Self, crate::LoadError> {
                let (mut array, mut fault) = (Self::empty(), 0);
                let path = crate::saved::path_of(path.as_ref())?;
                // SAFETY: the handle is a new array's, lent for this call alone; the path is a string of C, and the
                // fault this function's.
                match unsafe { sellumaq_sys::$open(&mut array.handle, path.as_ptr(), &mut fault) } {
                    sellumaq_sys::SELLUMAQ_SYSTEM => Err(std::io::Error::last_os_error().into()),
                    told => {
                        crate::LoadFault::check(told, fault)?;
                        Ok(array.of_types()?)
                    }
                }
            }
        }
    };
}

pub(crate) use saved;
