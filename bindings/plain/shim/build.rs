//! What the library tells of itself: sto.h declares these functions.
use std::os::raw::c_char;

/// Upon what the program stands.
#[no_mangle]
pub extern "C" fn sto_build() -> *const c_char {
    b"plain\0".as_ptr().cast()
}

/// The sum of the sources of which it is made.
#[no_mangle]
pub extern "C" fn sto_sources() -> *const c_char {
    b"SOURCES\0".as_ptr().cast()
}

/// The version, as STO_VERSION_NUMBER.
#[no_mangle]
pub extern "C" fn sto_version() -> u32 {
    number("VERSION")
}

/// The same as a text.
#[no_mangle]
pub extern "C" fn sto_version_text() -> *const c_char {
    b"VERSION\0".as_ptr().cast()
}

fn number(version: &str) -> u32 {
    version.split('.').fold(0, |sum, part| sum * 100 + part.parse::<u32>().unwrap_or(0))
}
