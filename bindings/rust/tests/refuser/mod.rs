//! Calls for memory that are refused, by tests/refuse_alloc.c where that is preloaded.
use std::ffi::c_void;
use std::fmt::Debug;
use std::os::raw::{c_char, c_long};

extern "C" {
    fn dlsym(library: *mut c_void, name: *const c_char) -> *mut c_void;
}

/// Refuses calls for memory of this thread.
#[derive(Clone, Copy)]
pub struct Refuser(unsafe extern "C" fn(c_long) -> c_long);

impl Refuser {
    /// What is preloaded.
    pub fn find() -> Option<Refuser> {
        // SAFETY: the null pointer stands for all libraries of the program, and the function has this type.
        let found = unsafe {
            std::mem::transmute::<*mut c_void, Option<unsafe extern "C" fn(c_long) -> c_long>>(
                dlsym(std::ptr::null_mut(), b"refuse_from\0".as_ptr().cast()),
            )
        };
        if found.is_none() {
            println!("nothing is preloaded that refuses memory");
        }
        found.map(Refuser)
    }

    /// What a call answers whose calls for memory are refused from the n-th on, and how many were.
    pub fn from<T>(self, nth: c_long, call: impl FnOnce() -> T) -> (T, c_long) {
        // SAFETY: it only counts.
        unsafe { self.0(nth) };
        let told = call();
        // SAFETY: as above.
        (told, unsafe { self.0(0) })
    }

    /// Makes a call whose first call for memory is refused and each later one, then its second, and so on until it
    /// succeeds. Each refusal must be told as the error and leave the array the `same`. What it answers in the end, and
    /// how often it failed.
    pub fn in_turn<A, T, E>(
        self,
        array: &mut A,
        error: E,
        call: impl Fn(&mut A) -> Result<T, E>,
        same: impl Fn(&A) -> bool,
    ) -> (T, c_long)
    where
        E: PartialEq + Debug,
    {
        let mut failed = 0;
        loop {
            match self.from(failed + 1, || call(array)) {
                (Ok(told), _) => return (told, failed),
                (Err(told), refused) => assert!(
                    told == error && refused > 0 && same(array),
                    "{told:?}, {refused} calls refused"
                ),
            }
            failed += 1;
        }
    }
}
