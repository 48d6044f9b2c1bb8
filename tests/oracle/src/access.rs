// Stands inside the Rust's parser module, so that private fields can be read and written.

use super::BoolDecoderError;
use super::ComputePartitionSizesError;
use super::Header;
use super::MbLfAdjustments;
use super::ModeProbs;
use super::ParseFrameError;
use super::ParseUncompressedChunkError;
use super::Parser;
use super::Segmentation;
use crate::answer::Answer;

/// The kept numbers of a fresh parser.
// Of the copies that count bools nobody asks.
#[allow(dead_code)]
pub fn fresh() -> Vec<u8> {
    kept(&Parser::default())
}

fn kept(p: &Parser) -> Vec<u8> {
    let mut out = Vec::with_capacity(crate::answer::KEPT);
    let s = &p.segmentation;
    out.extend([s.segmentation_enabled, s.update_mb_segmentation_map].map(u8::from));
    out.extend([s.update_segment_feature_data, s.segment_feature_mode].map(u8::from));
    out.extend(s.quantizer_update_value.map(|v| v as u8));
    out.extend(s.lf_update_value.map(|v| v as u8));
    out.extend(s.segment_prob);
    let f = &p.mb_lf_adjust;
    out.extend([f.loop_filter_adj_enable, f.mode_ref_lf_delta_update].map(u8::from));
    out.extend(f.ref_frame_delta.map(|v| v as u8));
    out.extend(f.mb_mode_delta.map(|v| v as u8));
    out.extend(p.coeff_prob.as_flattened().as_flattened().as_flattened());
    out.extend(p.mv_prob.as_flattened());
    out.extend(p.mode_probs.intra_16x16_prob);
    out.extend(p.mode_probs.intra_chroma_prob);
    out
}

/// The parser of these kept numbers, which are all that it holds.
fn load(kept: &[u8]) -> Parser {
    let flag = |at: usize| kept[at] != 0;
    let signed = |at: usize| std::array::from_fn(|i| kept[at + i] as i8);
    let mut p = Parser {
        segmentation: Segmentation {
            segmentation_enabled: flag(0),
            update_mb_segmentation_map: flag(1),
            update_segment_feature_data: flag(2),
            segment_feature_mode: flag(3),
            quantizer_update_value: signed(4),
            lf_update_value: signed(8),
            segment_prob: std::array::from_fn(|i| kept[12 + i]),
        },
        mb_lf_adjust: MbLfAdjustments {
            loop_filter_adj_enable: flag(15),
            mode_ref_lf_delta_update: flag(16),
            ref_frame_delta: signed(17),
            mb_mode_delta: signed(21),
        },
        mode_probs: ModeProbs {
            intra_16x16_prob: std::array::from_fn(|i| kept[1119 + i]),
            intra_chroma_prob: std::array::from_fn(|i| kept[1123 + i]),
        },
        ..Parser::default()
    };
    p.coeff_prob.as_flattened_mut().as_flattened_mut().as_flattened_mut().copy_from_slice(&kept[25..1081]);
    p.mv_prob.as_flattened_mut().copy_from_slice(&kept[1081..1119]);
    p
}

fn numbers(h: &Header) -> Vec<i64> {
    let q = &h.quant_indices;
    let mut out: Vec<i64> = Vec::with_capacity(crate::answer::NUMBERS.len());
    out.extend([h.key_frame as i64, h.version as i64, h.show_frame as i64, h.data_chunk_size as i64]);
    out.extend([h.first_part_size as i64, h.width as i64, h.height as i64]);
    out.extend([h.horiz_scale_code as i64, h.vert_scale_code as i64]);
    out.extend([h.color_space as i64, h.clamping_type as i64, h.filter_type as i64]);
    out.extend([h.loop_filter_level as i64, h.sharpness_level as i64]);
    out.extend([h.num_dct_partitions() as i64, h.log2_nbr_of_dct_partitions as i64]);
    out.extend(h.partition_size.map(|v| v as i64));
    out.push(q.y_ac_qi as i64);
    let deltas = [q.y_dc_delta, q.y2_dc_delta, q.y2_ac_delta, q.uv_dc_delta, q.uv_ac_delta];
    out.extend(deltas.map(|v| v as u8 as i64));
    out.extend([h.refresh_entropy_probs, h.refresh_last].map(i64::from));
    out.extend([h.refresh_golden_frame, h.refresh_alternate_frame].map(i64::from));
    out.extend([h.copy_buffer_to_golden as i64, h.copy_buffer_to_alternate as i64]);
    out.extend([h.sign_bias_golden, h.sign_bias_alternate, h.mb_no_coeff_skip].map(i64::from));
    out.extend([h.prob_skip_false, h.prob_intra, h.prob_last, h.prob_golden].map(i64::from));
    out.extend([h.bd_range as i64, h.bd_value as i64, h.bd_count as i64, h.header_size as i64]);
    // Not in the Rust: the bools and the bits past the end are put in by who counts them, columns and rows are the port's.
    out.extend([0, crate::answer::blocks(h.width as i64), crate::answer::blocks(h.height as i64), 0]);
    out
}

fn probs(h: &Header) -> Vec<u8> {
    let mut out = Vec::with_capacity(crate::answer::PROBS);
    out.extend(h.coeff_prob.as_flattened().as_flattened().as_flattened());
    out.extend(h.mv_prob.as_flattened());
    out.extend(h.mode_probs.intra_16x16_prob);
    out.extend(h.mode_probs.intra_chroma_prob);
    out
}

/// The number of a chunk's refusal, and the code that it carries.
fn chunk_refusal(why: ParseUncompressedChunkError) -> (u8, u32) {
    match why {
        ParseUncompressedChunkError::IoError(_) => (1, 0),
        ParseUncompressedChunkError::InvalidStartCode(code) => (2, code),
    }
}

/// What the chunk alone tells.
// Of the other copies, and in the slips, nobody asks.
#[allow(dead_code)]
pub fn look(bytes: &[u8]) -> crate::answer::Look {
    let h = Header::parse_uncompressed_data_chunk(bytes).map_err(chunk_refusal)?;
    let all = numbers(&h);
    Ok(crate::answer::SEEN.map(|name| all[crate::answer::at(name)]))
}

/// A call over the record of these kept numbers. They are handed from call to call, so they have to be the whole record.
pub fn call(before: &[u8], bytes: &[u8]) -> Answer {
    let mut p = load(before);
    assert!(kept(&p) == before, "a record that is not as the numbers that it was made of");
    let out = parse(&mut p, bytes);
    assert!(load(&out.kept) == p, "a record that its numbers do not make again");
    out
}

fn parse(p: &mut Parser, bytes: &[u8]) -> Answer {
    let refused = |refusal: u8, a: usize, b: usize| Answer {
        refusal,
        a: a as u32,
        b: b as u32,
        ..Answer::default()
    };
    let mut out = match p.parse_frame(bytes) {
        Ok(frame) => Answer {
            numbers: numbers(&frame.header),
            probs: probs(&frame.header),
            view: frame.as_ref().len(),
            ..Answer::default()
        },
        Err(ParseFrameError::ParseUncompressedChunk(why)) => {
            let (refusal, code) = chunk_refusal(why);
            refused(refusal, code as usize, 0)
        }
        Err(ParseFrameError::InvalidPartitionSize(end, length)) => refused(3, end, length),
        Err(ParseFrameError::ParseFrameHeader(BoolDecoderError::EndOfInput)) => refused(4, 0, 0),
        Err(ParseFrameError::ComputePartitionSizes(ComputePartitionSizesError::EndOfHeader)) => refused(5, 0, 0),
        // The rules have no number for the rest, since they cannot arise.
        Err(other) => panic!("an error that cannot arise: {other}"),
    };
    out.kept = kept(p);
    out
}
