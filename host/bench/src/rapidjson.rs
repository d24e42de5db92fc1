//! RapidJSON's validating SAX reader, where the bench was built with it.

use std::ffi::CStr;

/// How many bytes of a text are read before one that no JSON text goes on with.
pub type Reads = fn(&CStr) -> usize;

/// The reader; none where RapidJSON is not there.
pub const READS: Option<Reads> = reads();

#[cfg(not(rapidjson))]
const fn reads() -> Option<Reads> {
    None
}

#[cfg(rapidjson)]
#[allow(unsafe_code)]
const fn reads() -> Option<Reads> {
    extern "C" {
        fn rapidjson_reads(text: *const std::ffi::c_char) -> usize;
    }
    // SAFETY: the text ends with NUL, and nothing of it is kept.
    Some(|text| unsafe { rapidjson_reads(text.as_ptr()) })
}
