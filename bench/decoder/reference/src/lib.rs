//! The Rust decoder as given, and the reads that are measured.

include!(concat!(env!("OUT_DIR"), "/given.rs"));

use codec::vp8::bool_decoder::BoolDecoder;
use codec::vp8::probs::COEFF_UPDATE_PROBS;

/// The 1,056 coefficient update flags from the area's start, with the places of those that are set folded into a sum.
#[no_mangle]
#[inline(never)]
pub extern "C" fn reference_flags(area: *const u8, length: usize) -> u64 {
    // SAFETY: the host hands over a slice's own pointer and length.
    let area = unsafe { std::slice::from_raw_parts(area, length) };
    let mut decoder = BoolDecoder::new(area);
    let (mut sum, mut place) = (0u64, 0u64);
    for i in 0..4 {
        for j in 0..8 {
            for k in 0..3 {
                for l in 0..11 {
                    match decoder.read_bool_with_prob(COEFF_UPDATE_PROBS[i][j][k][l]) {
                        Ok(true) => sum = sum.rotate_left(5) ^ place,
                        Ok(false) => {}
                        Err(_) => return sum,
                    }
                    place += 1;
                }
            }
        }
    }
    sum
}
