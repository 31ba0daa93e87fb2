//! An older library beside today's, loaded from a shared library that bench/run makes of its archive.

use interface::Exports;
use std::ffi::{c_char, c_int, c_void, CString};
use std::sync::OnceLock;

extern "C" {
    fn dlopen(name: *const c_char, flags: c_int) -> *mut c_void;
    fn dlsym(library: *mut c_void, name: *const c_char) -> *mut c_void;
}

static LOADED: OnceLock<Exports> = OnceLock::new();

/// Loads it; from now on it runs in turn with today's.
pub fn load(path: &str) -> Result<(), String> {
    const NOW: c_int = 2;
    let name = |text: &str| CString::new(text).expect("a name has no zero");
    // SAFETY: the text ends with a zero; the library has no code that runs when it is loaded.
    let library = unsafe { dlopen(name(path).as_ptr(), NOW) };
    if library.is_null() {
        return Err(format!("{path} cannot be loaded"));
    }
    let address = |text: &str| {
        // SAFETY: the library is loaded and stays so; what it has under a name is a function.
        unsafe {
            std::mem::transmute::<*mut c_void, Option<unsafe extern "C" fn()>>(dlsym(library, name(text).as_ptr()))
        }
    };
    // SAFETY: an archive of ours has our functions under our names.
    let exports = unsafe { Exports::find(address) }.ok_or(format!("{path} has no look-up"))?;
    LOADED.set(exports).map_err(|_| "an older library is loaded already".to_string())
}

pub fn loaded() -> Option<&'static Exports> {
    LOADED.get()
}
