// Stands inside the Rust's decoder module, so that its private count can be read.

use super::BoolDecoder;
use super::BD_VALUE_SIZE;
use super::LOTS_OF_BITS;

/// How many bits the Rust's reader has gone past its bytes. It counts the bits that it still has, from eight below zero on; when it takes
/// the last byte it adds a large number, so as never to run out, and what is missing from that number was made up.
pub fn past(decoder: &BoolDecoder) -> usize {
    let left = decoder.count + 8;
    let last_byte_taken = left > BD_VALUE_SIZE as isize;
    if last_byte_taken { (LOTS_OF_BITS as isize - left).max(0) as usize } else { 0 }
}
