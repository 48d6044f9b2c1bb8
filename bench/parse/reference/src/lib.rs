//! The Rust parser as given, and the calls that are measured.

// The Rust says `log::debug`; this crate plays that crate, and its one macro does nothing.
extern crate self as log;

#[macro_export]
macro_rules! debug {
    ($($any:tt)*) => {};
}

include!(concat!(env!("OUT_DIR"), "/given.rs"));

/// One frame by a fresh parser, folded into the number that the port's side makes.
#[no_mangle]
#[inline(never)]
pub extern "C" fn reference_parse_frame(bytes: *const u8, length: usize) -> u64 {
    // SAFETY: the host hands over a slice's own pointer and length.
    codec::vp8::parser::access::number(unsafe { std::slice::from_raw_parts(bytes, length) })
}

pub use codec::vp8::parser::Parser;

/// One frame by a parser that is kept: the number of the refusal, or 0.
#[no_mangle]
#[inline(never)]
pub extern "C" fn reference_state_frame(parser: *mut Parser, bytes: *const u8, length: usize) -> u64 {
    // SAFETY: the host hands over a parser of its own, and a slice's own pointer and length.
    codec::vp8::parser::access::kept(unsafe { &mut *parser }, unsafe { std::slice::from_raw_parts(bytes, length) })
}
