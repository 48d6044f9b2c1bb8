//! Variants with one slip each, of the Rust and of the standard's reader: the stored lists must tell every one of them, by the frames of
//! each mode whose reader the slip alters. A slip names its places in the Rust by line and column, so that no text of the Rust stands
//! here; assemble.rs knows the texts by their digests, so that a place stays where it is. Beside each variant's program `write` leaves
//! what was changed, for whoever has the Rust.

use crate::answer::Mode;
use crate::assemble::Edit::{Put, Swap};
use crate::assemble::In::{Decoder, Parser};
use crate::assemble::{line, start, Change, Given, STANDARD};
use std::path::Path;

/// The line that is the head of the call, which some slips wrap.
const CALL: usize = 704;

/// Slips that alter the parser's record after some outcomes: the outcome, and what is done then.
const AFTER: [(&str, &str, &str); 6] = [
    ("record put back after refusal 3", "Err(ParseFrameError::InvalidPartitionSize(..))", "*self = old;"),
    ("record put back after refusal 4", "Err(ParseFrameError::ParseFrameHeader(_))", "*self = old;"),
    ("record put back after refusal 5", "Err(ParseFrameError::ComputePartitionSizes(_))", "*self = old;"),
    (
        "wrong start code resets",
        "Err(ParseFrameError::ParseUncompressedChunk(ParseUncompressedChunkError::InvalidStartCode(_)))",
        "*self = Default::default();",
    ),
    (
        "short key frame resets",
        "Err(ParseFrameError::ParseUncompressedChunk(ParseUncompressedChunkError::IoError(_)))",
        "if bitstream.len() >= 3 && bitstream[0] & 1 == 0 { *self = Default::default(); }",
    ),
    (
        "refusal 4 clears the filter's update flag too",
        "Err(ParseFrameError::ParseFrameHeader(_))",
        "self.mb_lf_adjust.mode_ref_lf_delta_update = false;",
    ),
];

/// Slips of both readers; the standard's own changes are slips of the Rust alone.
const SLIPS: &[Change] = &[
    // The boolean decoder.
    ("sign before magnitude", &[Swap(Decoder, 188)]),
    ("sign the other way", &[Put(Decoder, 191, 12, 0, "!")]),
    ("literal low bit first", &[
        Put(Decoder, 148, 24, 2, "as u32 >>"),
        Put(Decoder, 148, 28, 1, ""),
        Put(Decoder, 148, 32, 0, "("),
        Put(
            Decoder,
            148,
            67,
            0,
            " as u32) << 31) as i32;\n        }\n        if nbits > 0 {\n            ret = (ret as u32 >> (32 - nbits))",
        ),
    ]),
    ("wider word keeps the dropped bit", &[
        Put(Decoder, 63, 12, 5, "u128"),
        Put(Decoder, 73, 20, 6, "0u128"),
        Put(Decoder, 98, 31, 0, "("),
        Put(Decoder, 98, 68, 0, " as u128)"),
        Put(Decoder, 116, 24, 0, "("),
        Put(Decoder, 116, 29, 0, " as u128)"),
        Put(Decoder, 218, 20, 0, "("),
        Put(Decoder, 218, 57, 0, ") as usize"),
    ]),
    ("split without its 1", &[Put(Decoder, 110, 21, 4, "")]),
    ("split from the whole range", &[Put(Decoder, 110, 27, 1, ""), Put(Decoder, 110, 38, 5, "")]),
    ("a bool is 1 only above the split", &[Put(Decoder, 118, 34, 1, "")]),
    ("first range 254", &[Put(Decoder, 72, 20, 8, "254usize")]),
    ("flags at probability 127", &[Put(Decoder, 28, 33, 3, "127")]),
    ("one entry of the shift table less", &[Put(Decoder, 17, 14, 1, "5")]),
    ("last entry of the shift table's first half more", &[Put(Decoder, 20, 98, 1, "2")]),
    ("snapshot count from the stopped position", &[
        Put(Decoder, 219, 21, 7, "(8"),
        Put(Decoder, 219, 29, 10, "-"),
        Put(Decoder, 219, 43, 5, "pos("),
        Put(Decoder, 219, 52, 7, "8) % 8)"),
    ]),
    ("snapshot without taking in the next byte", &[Put(Decoder, 213, 12, 12, "false")]),
    ("position goes on past the end", &[
        Put(Decoder, 203, 35, 14, "wrapping_sub"),
        Put(Decoder, 207, 12, 3, ".wrapping_sub("),
        Put(Decoder, 207, 24, 0, ")"),
    ]),
    ("last byte of the area not read", &[Put(Decoder, 86, 25, 0, "("), Put(Decoder, 86, 57, 0, " - 8).max(8)")]),

    // The chunk.
    ("width of 13 bits", &[Put(Parser, 282, 40, 6, "0x1fff")]),
    ("height of 13 bits", &[Put(Parser, 288, 41, 6, "0x1fff")]),
    ("scale code of one bit", &[Put(Parser, 281, 53, 2, "15")]),
    ("version of two bits", &[Put(Parser, 263, 42, 4, "0x03")]),
    ("first partition size of 18 bits", &[Put(Parser, 265, 49, 7, "0x3ffff")]),
    ("start code not looked at", &[Put(Parser, 274, 27, 0, "& 0xffff "), Put(Parser, 274, 30, 8, "0x019d")]),
    ("key frame does not reset", &[Put(Parser, 708, 13, 27, "")]),
    ("first partition must end before the end", &[Put(Parser, 713, 28, 0, "=")]),
    ("first partition may end one after the end", &[Put(Parser, 713, 45, 0, "+ 1 ")]),
    ("chunk left out of the first partition's end", &[Put(Parser, 711, 37, 34, "")]),

    // Segmentation and the filter.
    ("map flag not cleared", &[Put(Parser, 430, 9, 39, "")]),
    ("feature data flag not cleared", &[Put(Parser, 431, 9, 40, "")]),
    STANDARD[0],
    ("segment probabilities with the data flag alone", &[Put(Parser, 466, 16, 30, "true")]),
    ("segment probability without flag 0", &[Put(Parser, 474, 34, 3, "0")]),
    ("segment quantizer without flag kept", &[Put(Parser, 448, 24, 0, "if false ")]),
    ("segment filter level without flag kept", &[Put(Parser, 459, 24, 0, "if false ")]),
    ("segment mode not stored", &[Put(Parser, 442, 13, 27, "")]),
    ("segmentation off forgets its mode", &[Put(Parser, 435, 13, 0, "seg.segment_feature_mode = false;\n            ")]),
    ("filter update flag not cleared", &[Put(Parser, 487, 9, 37, "")]),
    ("reference delta without flag 0", &[Put(Parser, 500, 13, 0, "*value = 0;\n            ")]),
    ("mode delta without flag 0", &[Put(Parser, 507, 13, 0, "*value = 0;\n            ")]),
    ("filter deltas forgotten when off", &[Put(Parser, 491, 13, 0, "*adj = Default::default();\n            ")]),
    ("sharpness before level", &[Swap(Parser, 612)]),

    // The rest of the header.
    STANDARD[1],
    ("quantizer deltas in another order", &[
        Put(Parser, 529, 15, 11, "y2_ac_delta"),
        Put(Parser, 536, 15, 11, "y2_dc_delta"),
        Put(Parser, 537, 17, 31, ""),
    ]),
    ("chroma quantizer delta of five bits", &[Put(Parser, 550, 42, 1, "5")]),
    ("copy codes in the other order", &[
        Put(Parser, 636, 23, 20, "refresh_alternate_frame"),
        Put(Parser, 637, 23, 21, "copy_buffer_to_alternate"),
        Put(Parser, 637, 64, 0, " // first"),
        Put(Parser, 640, 23, 23, "refresh_golden_frame"),
        Put(Parser, 641, 23, 24, "copy_buffer_to_golden"),
    ]),
    ("sign biases in the other order", &[Put(Parser, 644, 19, 16, "sign_bias_alternate"), Put(Parser, 645, 19, 19, "sign_bias_golden")]),
    ("refresh flags in the other order", &[
        Put(Parser, 633, 19, 20, "refresh_alternate_frame"),
        Put(Parser, 634, 19, 23, "refresh_golden_frame"),
    ]),
    ("refresh last before refresh entropy", &[Put(Parser, 646, 19, 21, "refresh_last"), Put(Parser, 647, 19, 12, "refresh_entropy_probs")]),
    ("key frame leaves refresh last false", &[Put(Parser, 627, 13, 26, "")]),
    ("key frame takes the other mode probabilities", &[Put(Parser, 631, 69, 4, "false")]),
    ("inter frame starts from the default mode probabilities", &[
        Put(Parser, 649, 13, 0, "Parser::mode_probs_init_defaults(&mut "),
        Put(Parser, 649, 29, 0, ","),
        Put(Parser, 649, 30, 24, "false"),
    ]),
    ("inter frame starts from the default coefficients", &[Put(Parser, 652, 28, 15, "COEFF_DEFAULT_PROBS")]),
    ("coefficients in another order", &[Put(Parser, 563, 53, 0, ".rev()")]),
    ("coefficient flags from a transposed table", &[Put(Parser, 566, 83, 0, "7 - ")]),
    ("motion update 0 stores 0", &[Put(Parser, 591, 33, 1, "0")]),
    ("motion update not doubled", &[Put(Parser, 589, 47, 5, "")]),
    ("motion rows in the other order", &[Put(Parser, 582, 55, 0, ".rev()")]),
    ("prob last before prob intra", &[Put(Parser, 663, 19, 10, "prob_last"), Put(Parser, 664, 19, 9, "prob_intra")]),
    ("chroma modes in the wrong order", &[Put(Parser, 676, 74, 0, ".rev()")]),

    // What is kept.
    ("probabilities always kept", &[Put(Parser, 684, 12, 27, "true")]),
    ("probabilities never kept", &[Put(Parser, 684, 12, 27, "false")]),
    ("motion probabilities not kept", &[Put(Parser, 686, 13, 29, "")]),
    ("mode probabilities not kept", &[Put(Parser, 689, 17, 43, "")]),
    ("mode probabilities kept from key frames too", &[Put(Parser, 688, 16, 16, "true")]),

    // The partitions.
    ("table of sizes must end before the end", &[Put(Parser, 304, 17, 0, "=")]),
    ("partitions must end before the end", &[Put(Parser, 320, 17, 0, "=")]),
    ("partitions may end one after the end", &[
        Put(Parser, 320, 29, 0, "+ 1 "),
        Put(Parser, 324, 75, 3, ".saturating_sub("),
        Put(Parser, 324, 81, 0, ")"),
    ]),
    ("last partition one short", &[Put(Parser, 324, 65, 0, "("), Put(Parser, 324, 81, 0, ").saturating_sub(1)")]),
    ("last partition with the table counted in", &[Put(Parser, 324, 81, 0, " + 3 * (num_partitions - 1)")]),
    ("sizes high byte first", &[Put(Parser, 309, 52, 0, " << 16"), Put(Parser, 311, 56, 6, "")]),
    ("third byte of a size worth less", &[Put(Parser, 311, 60, 2, "15")]),
    ("table of sizes counted from the frame's start", &[
        Put(Parser, 301, 33, 0, "("),
        Put(Parser, 301, 62, 0, ").saturating_sub(self.data_chunk_size as usize)"),
    ]),
];

/// Slips of the standard's reader alone, whose own edits they alter or stand beside.
const ALONE: &[Change] = &[
    ("probabilities only with feature data", &[Put(Parser, 466, 1, 0, "")]),
    ("probabilities before the feature data", &[
        Put(
            Parser,
            441,
            9,
            0,
            "if seg.update_mb_segmentation_map {\n            for value in seg.segment_prob.iter_mut() {\n                \
             *value = if bd.read_bool()? { bd.read_uint(8)? } else { 255 };\n            }\n        }\n        ",
        ),
        Put(Parser, 466, 16, 30, "false"),
    ]),
    ("probability without flag 0 where there are no data", &[Put(Parser, 474, 34, 3, "if seg.update_segment_feature_data { 255 } else { 0 }")]),
    ("probability without flag kept where there are no data", &[Put(Parser, 471, 28, 0, "if seg.update_segment_feature_data ")]),
    ("decoder not held", &[Put(Parser, 602, 39, 0, ""), Put(Parser, 602, 43, 0, "")]),
    ("decoder held one byte short", &[Put(Parser, 602, 43, 0, "[..frame.first_part_size as usize - (frame.first_part_size > 1) as usize]")]),
    ("decoder held one byte long", &[
        Put(Parser, 602, 43, 0, "[..data.len().min(frame.first_part_size as usize + (frame.first_part_size > 0) as usize)]"),
    ]),
    ("refusal 4 by the whole area", &[
        Put(Parser, 602, 39, 0, "if frame.first_part_size == 0 && !data.is_empty() { &[0] } else { &"),
        Put(Parser, 602, 43, 0, "[..frame.first_part_size as usize] }"),
    ]),
    ("refusal 4 before a key frame's reset", &[
        Put(
            Parser,
            706,
            9,
            0,
            "if header.first_part_size == 0 && header.key_frame {\n            \
             return Err(BoolDecoderError::EndOfInput.into());\n        }\n        ",
        ),
    ]),
    ("refusal 4 of a header that reaches the first partition's end", &[
        Put(
            Parser,
            693,
            9,
            0,
            "if bd.pos() == 8 * frame.first_part_size as usize {\n            \
             return Err(BoolDecoderError::EndOfInput);\n        }\n        ",
        ),
    ]),
    ("sizes measured against the first partition", &[Put(Parser, 720, 40, 0, "&"), Put(Parser, 720, 55, 0, "[..header.first_part_size as usize]")]),
];

/// What is done around the call where the standard's reader keeps a record of its own; a fresh parser is a fresh one for it too.
const OWN: (&str, &str, &str) = (
    "the standard's reader has a record of its own",
    "thread_local!(static OWN: std::cell::RefCell<Parser> = Default::default());\n \
     if *self != Parser::default() { *self = OWN.with_borrow(Parser::clone); }",
    "OWN.set(self.clone());",
);

/// A variant: its name and both readers.
struct Variant {
    name: &'static str,
    rust: Given,
    standard: Given,
}

/// The text of a slip's program: both readers with the replay of the lists around them.
fn program(variant: &Variant, altered: &[Mode]) -> String {
    let here = Path::new(env!("CARGO_MANIFEST_DIR")).join("src");
    let mut out = "extern crate self as log;\n#[macro_export]\nmacro_rules! debug { ($($any:tt)*) => {}; }\n".to_string();
    let modules = |given: &Given, root: &str| given.telling(&here.join("beyond.rs")).modules(root, &here.join("access.rs"));
    out += &modules(&variant.rust, "crate::");
    out += &format!("pub mod standard {{\n{}}}\n", modules(&variant.standard, "crate::standard::"));
    for name in ["answer", "bare", "replay"] {
        out += &format!("#[path = {:?}]\n#[allow(dead_code)]\nmod {name};\n", here.join(name).with_extension("rs"));
    }
    let modes: String = altered.iter().map(|mode| format!("answer::Mode::{mode:?}, ")).collect();
    out + &format!("fn main() {{ let a: Vec<String> = std::env::args().skip(1).collect(); std::process::exit(replay::main(&a, &[{modes}])) }}\n")
}

/// The call with something done before it and after.
fn wrapped(given: &Given, before: &str, after: &str) -> Given {
    let call = line(&given.parser, CALL);
    let head = call.replace("parse_frame", "inner").replace("pub fn", "fn");
    let wrap = format!("{call}\n {before}\n let r = self.inner(bitstream);\n {after}\n r\n }}\n{head}");
    let mut parser = given.parser.clone();
    let at = start(&parser, CALL);
    parser.replace_range(at..at + call.len(), &wrap);
    Given { parser, ..given.clone() }
}

/// All variants; the first is the Rust unchanged.
fn variants(given: &Given) -> Vec<Variant> {
    // The wrapped call stands after the places of the standard's edits, which so stay where they are told.
    let both = |name, rust: Given| Variant { name, standard: rust.standard(&[]), rust };
    let alone = |name, standard| Variant { name, standard, rust: given.clone() };
    let after = |outcome: &str, then: &str| {
        wrapped(given, "let old = self.clone();", &format!("if matches!(r, {outcome}) {{ {then} }}\n let _ = old;"))
    };
    let mut all = vec![both("the Rust unchanged", given.clone())];
    all.extend(SLIPS.iter().map(|(name, edits)| Variant { name, rust: given.edited(edits), standard: given.standard(edits) }));
    all.extend(AFTER.iter().map(|(name, outcome, then)| both(name, after(outcome, then))));
    all.extend(ALONE.iter().map(|(name, edits)| alone(name, given.standard(edits))));
    let (name, outcome, then) = AFTER[1];
    all.push(alone(name, after(outcome, then).standard(&[])));
    let (name, before, then) = OWN;
    all.push(alone(name, wrapped(given, before, then).standard(&[])));
    all
}

/// Writes one program a slip into the folder, numbered, with its name and what was changed beside it; 00 is the Rust unchanged.
pub fn write(folder: &Path) {
    let given = Given::found().unwrap_or_else(|why| crate::stop(2, &why));
    let standard = given.standard(&[]);
    for (i, variant) in variants(&given).iter().enumerate() {
        let put = |end: &str, text: &str| {
            let path = folder.join(format!("{i:02}.{end}"));
            std::fs::write(&path, text).unwrap_or_else(|why| crate::stop(1, &format!("{}: {why}", path.display())));
        };
        let changes = [(Mode::Rust, given.changes(&variant.rust)), (Mode::Standard, standard.changes(&variant.standard))];
        let altered: Vec<_> = changes.iter().filter(|(_, change)| !change.is_empty()).collect();
        put("rs", &program(variant, &altered.iter().map(|(mode, _)| *mode).collect::<Vec<_>>()));
        let whose = match altered[..] {
            [(mode, _)] => format!(" ({mode} alone)"),
            _ => String::new(),
        };
        put("name", &format!("{}{whose}", variant.name));
        put("change", altered.first().map_or("", |(_, change)| change));
    }
}
