//! Searches through a map from strings, whose keys may have any length.
use sellumaq_sys as sys;
use std::mem::MaybeUninit;
use std::slice::from_raw_parts;

/// A scan of C from the string in a buffer of the capacity given, whose length and what is told of the key found, its
/// value or its slot, stand behind pointers.
pub type Scan<T> =
    unsafe extern "C" fn(*const sys::sellumaq_judysl, *mut u8, usize, *mut usize, *mut T) -> u32;

/// A scan, and the one to the same key by which its length is told where the buffer is too small.
pub struct Search<T> {
    scan: Scan<T>,
    measure: Scan<u64>,
}

/// A key that has no more bytes is written to a buffer on the stack first.
pub const SHORT: usize = 1024;

/// Room for the longest key, in which a search takes one way down the map and not two, is taken up to so many bytes.
pub const SPARE: usize = 64 * SHORT;

impl<T> Search<T> {
    pub const fn of(scan: Scan<T>, measure: Scan<u64>) -> Search<T> {
        Search { scan, measure }
    }

    /// The key found from a string without zero bytes on, of which the scan tells.
    ///
    /// # Safety
    ///
    /// The handle is an array's that isn't changed meanwhile, and both are scans of `sellumaq_sys`.
    pub unsafe fn find(
        &self,
        handle: sys::sellumaq_judysl,
        string: &[u8],
        told: &mut T,
    ) -> Option<Vec<u8>> {
        if string.len() <= SHORT {
            // SAFETY: as the caller says; the string is short.
            match unsafe { self.find_short(handle, string, told) } {
                Err(sys::SELLUMAQ_TOO_SMALL) => {}
                found => return found.ok(),
            }
        }
        // SAFETY: as the caller says.
        let longest = unsafe { sys::sellumaq_judysl_longest(&handle) };
        let mut key = Vec::with_capacity(longest.min(SPARE).max(string.len()));
        key.extend_from_slice(string);
        // SAFETY: as the caller says.
        let is_found = unsafe { self.replace(handle, &mut key, 0, told) };
        key.shrink_to_fit();
        is_found.then_some(key)
    }

    // The same from a short string, for a short key; else what is answered.
    //
    // SAFETY: as of `find`, and the string has at most `SHORT` bytes.
    unsafe fn find_short(
        &self,
        handle: sys::sellumaq_judysl,
        string: &[u8],
        told: &mut T,
    ) -> Result<Vec<u8>, u32> {
        let (mut room, mut length) = ([MaybeUninit::uninit(); SHORT], string.len());
        for (to, byte) in room.iter_mut().zip(string) {
            to.write(*byte);
        }
        let buffer = room.as_mut_ptr().cast();
        // SAFETY: the buffer has the bytes that it is said to have, the string is no longer, and all that the call
        // writes to is the caller's or this function's.
        match unsafe { (self.scan)(&handle, buffer, SHORT, &mut length, told) } {
            // SAFETY: the call wrote a key of this length to the front of the buffer.
            sys::SELLUMAQ_FOUND => Ok(unsafe { from_raw_parts(buffer, length) }.to_vec()),
            answer => Err(answer),
        }
    }

    /// Puts the key found from the string on that some bytes end with, from a place on, in the place of that; they get
    /// more room where they have too little. False where there is none, and then the string goes.
    ///
    /// # Safety
    ///
    /// As of [`find`](Self::find); the string begins within the bytes and has no zero byte.
    pub unsafe fn replace(
        &self,
        handle: sys::sellumaq_judysl,
        bytes: &mut Vec<u8>,
        place: usize,
        told: &mut T,
    ) -> bool {
        // SAFETY: as the caller says.
        let mut answer = unsafe { replace_by(self.scan, handle, bytes, place, told) };
        if answer == sys::SELLUMAQ_TOO_SMALL {
            let mut wanted = 0;
            // SAFETY: as the caller says. The answer is the same, and tells how long the key is.
            unsafe { replace_by(self.measure, handle, bytes, place, &mut wanted) };
            bytes.reserve((place + wanted as usize).saturating_sub(bytes.len()));
            // SAFETY: as the caller says.
            answer = unsafe { replace_by(self.scan, handle, bytes, place, told) };
        }
        if answer != sys::SELLUMAQ_FOUND {
            bytes.truncate(place);
        }
        answer == sys::SELLUMAQ_FOUND
    }
}

// Makes a scan from the string that some bytes end with, within the room that they have. Where it finds a key the bytes
// end with that.
//
// SAFETY: as of `Search::replace`.
unsafe fn replace_by<T>(
    scan: Scan<T>,
    handle: sys::sellumaq_judysl,
    bytes: &mut Vec<u8>,
    place: usize,
    told: &mut T,
) -> u32 {
    let (capacity, mut length) = (bytes.capacity() - place, bytes.len() - place);
    // SAFETY: the place is within the bytes.
    let buffer = unsafe { bytes.as_mut_ptr().add(place) };
    // SAFETY: the buffer has the bytes that it is said to have, the string is no longer, and all that the call writes
    // to is the caller's or this function's.
    let answer = unsafe { scan(&handle, buffer, capacity, &mut length, told) };
    if answer == sys::SELLUMAQ_FOUND {
        // SAFETY: the call wrote a key of this length to the place.
        unsafe { bytes.set_len(place + length) };
    }
    answer
}

/// The n-th key, counted from 1, and its value.
///
/// # Safety
///
/// The handle is an array's that isn't changed meanwhile.
pub unsafe fn nth(handle: sys::sellumaq_judysl, n: u64) -> Option<(Vec<u8>, u64)> {
    let (mut room, mut length, mut value) = ([MaybeUninit::<u8>::uninit(); SHORT], 0, 0);
    let (buffer, told) = (room.as_mut_ptr().cast(), &mut value);
    // SAFETY: the handle is as the caller says; the buffer has the bytes that it is said to have, and all that the call
    // writes to is this function's.
    match unsafe { sys::sellumaq_judysl_by_count(&handle, n, buffer, SHORT, &mut length, told) } {
        sys::SELLUMAQ_FOUND => {
            // SAFETY: the call wrote a key of this length to the front of the buffer.
            let key = unsafe { from_raw_parts(buffer, length) };
            Some((key.to_vec(), value))
        }
        // SAFETY: as the caller says.
        sys::SELLUMAQ_TOO_SMALL => unsafe { long_nth(handle, n, value as usize) },
        _ => None,
    }
}

// The same, where it has so many bytes.
//
// SAFETY: as of `nth`.
unsafe fn long_nth(handle: sys::sellumaq_judysl, n: u64, room: usize) -> Option<(Vec<u8>, u64)> {
    let (mut key, mut length, mut value) = (Vec::with_capacity(room), 0, 0);
    let (buffer, told) = (key.as_mut_ptr(), &mut value);
    // SAFETY: as in `nth`.
    let answer =
        unsafe { sys::sellumaq_judysl_by_count(&handle, n, buffer, room, &mut length, told) };
    if answer != sys::SELLUMAQ_FOUND {
        return None;
    }
    // SAFETY: the call wrote a key of this length to the front of the buffer.
    unsafe { key.set_len(length) };
    Some((key, value))
}
