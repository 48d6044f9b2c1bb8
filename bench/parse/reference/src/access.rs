// Stands inside the Rust's parser module, so that private fields can be read. The order of the numbers is that of crates/bench_parse.

use super::BoolDecoderError;
use super::ComputePartitionSizesError;
use super::Header;
use super::MbLfAdjustments;
use super::ModeProbs;
use super::ParseFrameError;
use super::ParseUncompressedChunkError;
use super::Parser;
use super::QuantIndices;
use super::Segmentation;

struct Sum(u64);

impl Sum {
    fn fold(&mut self, number: u64) {
        self.0 = self.0.rotate_left(5) ^ number;
    }

    fn bytes(&mut self, numbers: &[u8]) {
        for n in numbers {
            self.fold(*n as u64);
        }
    }

    fn flags(&mut self, flags: &[bool]) {
        for f in flags {
            self.fold(*f as u64);
        }
    }

    // Each as its two's complement byte.
    fn ints(&mut self, numbers: &[i8]) {
        for n in numbers {
            self.fold(*n as u8 as u64);
        }
    }

    fn quant(&mut self, q: &QuantIndices) {
        self.bytes(&[q.y_ac_qi]);
        self.ints(&[q.y_dc_delta, q.y2_dc_delta, q.y2_ac_delta, q.uv_dc_delta, q.uv_ac_delta]);
    }

    fn segmentation(&mut self, s: &Segmentation) {
        self.flags(&[s.segmentation_enabled, s.update_mb_segmentation_map]);
        self.flags(&[s.update_segment_feature_data, s.segment_feature_mode]);
        self.ints(&s.quantizer_update_value);
        self.ints(&s.lf_update_value);
        self.bytes(&s.segment_prob);
    }

    fn adjustments(&mut self, a: &MbLfAdjustments) {
        self.flags(&[a.loop_filter_adj_enable, a.mode_ref_lf_delta_update]);
        self.ints(&a.ref_frame_delta);
        self.ints(&a.mb_mode_delta);
    }

    // One coefficient and one motion probability, at a place that only the frame tells, so that none can be left out; and the modes.
    fn probs(&mut self, c: &[[[[u8; 11]; 3]; 8]; 4], m: &[[u8; 19]; 2], modes: &ModeProbs, place: usize) {
        self.bytes(&[c[place % 4][place / 4 % 8][place / 32 % 3][place / 96 % 11]]);
        self.bytes(&[m[place % 2][place / 2 % 19]]);
        self.bytes(&modes.intra_16x16_prob);
        self.bytes(&modes.intra_chroma_prob);
    }

    fn header(&mut self, h: &Header) {
        self.flags(&[h.key_frame]);
        self.bytes(&[h.version]);
        self.flags(&[h.show_frame]);
        self.bytes(&[h.data_chunk_size]);
        self.fold(h.first_part_size as u64);
        self.fold(h.width as u64);
        self.fold(h.height as u64);
        self.bytes(&[h.horiz_scale_code, h.vert_scale_code]);
        self.flags(&[h.color_space, h.clamping_type, h.filter_type]);
        self.bytes(&[h.loop_filter_level, h.sharpness_level]);
        self.bytes(&[1 << h.log2_nbr_of_dct_partitions, h.log2_nbr_of_dct_partitions]);
        for size in h.partition_size {
            self.fold(size as u64);
        }
        self.quant(&h.quant_indices);
        self.flags(&[h.refresh_entropy_probs, h.refresh_last, h.refresh_golden_frame, h.refresh_alternate_frame]);
        self.bytes(&[h.copy_buffer_to_golden, h.copy_buffer_to_alternate]);
        self.flags(&[h.sign_bias_golden, h.sign_bias_alternate, h.mb_no_coeff_skip]);
        self.bytes(&[h.prob_skip_false, h.prob_intra, h.prob_last, h.prob_golden]);
        self.fold(h.bd_range as u64);
        self.fold(h.bd_value as u64);
        self.fold(h.bd_count as u64);
        self.fold(h.header_size as u64);
        self.probs(&h.coeff_prob, &h.mv_prob, &h.mode_probs, h.header_size as usize);
    }
}

fn refusal(why: &ParseFrameError) -> u64 {
    match why {
        ParseFrameError::ParseUncompressedChunk(ParseUncompressedChunkError::IoError(_)) => 1,
        ParseFrameError::ParseUncompressedChunk(ParseUncompressedChunkError::InvalidStartCode(_)) => 2,
        ParseFrameError::InvalidPartitionSize(_, _) => 3,
        ParseFrameError::ParseFrameHeader(BoolDecoderError::EndOfInput) => 4,
        ParseFrameError::ComputePartitionSizes(ComputePartitionSizesError::EndOfHeader) => 5,
        // No number stands for the rest, since they cannot arise.
        _ => 99,
    }
}

pub fn number(bytes: &[u8]) -> u64 {
    let mut parser = Parser::default();
    let mut sum;
    let place;
    match parser.parse_frame(bytes) {
        Ok(frame) => {
            sum = Sum(0);
            sum.header(&frame.header);
            place = frame.header.header_size as usize;
        }
        Err(why) => {
            sum = Sum(refusal(&why));
            sum.header(&Header::default());
            place = 0;
        }
    }
    sum.segmentation(&parser.segmentation);
    sum.adjustments(&parser.mb_lf_adjust);
    sum.probs(&parser.coeff_prob, &parser.mv_prob, &parser.mode_probs, place);
    sum.0
}

/// A call over a parser that is kept: the number of the refusal, or 0.
pub fn kept(parser: &mut Parser, bytes: &[u8]) -> u64 {
    match parser.parse_frame(bytes) {
        Ok(frame) => {
            // So that the header is made.
            std::hint::black_box(&frame);
            0
        }
        Err(why) => refusal(&why),
    }
}
