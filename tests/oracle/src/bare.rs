//! The bare decoder driven by a script of reads.

use crate::codec::vp8::bool_decoder::{beyond, BoolDecoder, BoolDecoderState};

/// One read: kind (0 bool, 1 unsigned literal, 2 signed literal) and its probability or width.
pub type Read = (u8, u8);

/// The answer line of one script. Refusals 7 and 4 are the port's, so the Rust is not asked there.
pub fn line(area: &[u8], reads: &[Read]) -> String {
    let mut dec = if area.is_empty() { None } else { Some(BoolDecoder::new(area)) };
    let mut parts = Vec::new();
    for &(kind, n) in reads {
        let value = if kind != 0 && n > 31 {
            "r7".to_string()
        } else {
            match &mut dec {
                None if kind == 1 && n == 0 => "0".to_string(),
                None => "r4".to_string(),
                Some(d) => match kind {
                    0 => d.read_bool_with_prob(n).map(|b| (b as i32).to_string()),
                    1 => d.read_uint::<u32>(n as usize).map(|v| v.to_string()),
                    _ => d.read_sint::<i32>(n as usize).map(|v| v.to_string()),
                }
                .unwrap_or_else(|why| format!("error {why}")),
            }
        };
        let (pos, past) = dec.as_ref().map_or((0, 0), |d| (d.pos(), beyond::past(d)));
        parts.push(format!("{value},@{pos}+{past}"));
    }
    let end = match dec {
        None => "255 0 0 0 0".to_string(),
        Some(d) => {
            let (pos, past) = (d.pos(), beyond::past(&d));
            let state: BoolDecoderState = d.into();
            format!("{} {} {} {pos} {past}", state.range, state.value, state.count)
        }
    };
    format!("{} | {end}", parts.join(" "))
}
