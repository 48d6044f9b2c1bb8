/* GStreamer's codecparsers (Debian: libgstreamer-plugins-bad1.0-dev), asked for its reading of single frames, as rfc.c asks the RFC's
   program. NOT TRIED against a real library: there was none at hand; tests/peers says so, and leaves it out where pkg-config has none.
   Call: gst < PAIRS (peer.h), or `gst start`. A line is `ok` with the dump's keys but for bools, cols, rows and past, or `stop`. */
#define GST_USE_UNSTABLE_API
#include <gst/codecparsers/gstvp8parser.h>
#include "peer.h"

static GstVp8Parser parser;
static GstVp8FrameHdr header;

static void load(const uint8_t *record)
{
    GstVp8Segmentation *s = &parser.segmentation;
    GstVp8MbLfAdjustments *l = &parser.mb_lf_adjust;
    s->segmentation_enabled = record[SEG_ENABLED];
    s->update_mb_segmentation_map = record[SEG_MAP];
    s->update_segment_feature_data = record[SEG_DATA];
    s->segment_feature_mode = record[SEG_MODE];
    memcpy(s->quantizer_update_value, record + SEG_QUANTS, 4);
    memcpy(s->lf_update_value, record + SEG_LEVELS, 4);
    memcpy(s->segment_prob, record + SEG_PROBS, 3);
    l->loop_filter_adj_enable = record[ADJUST];
    l->mode_ref_lf_delta_update = record[ADJUST_UPDATE];
    memcpy(l->ref_frame_delta, record + REF_DELTAS, 4);
    memcpy(l->mb_mode_delta, record + MODE_DELTAS, 4);
    memcpy(parser.token_probs.prob, record + COEFF, COEFFS);
    memcpy(parser.mv_probs.prob, record + MOTION, MOTIONS);
    memcpy(parser.mode_probs.y_prob, record + LUMA, LUMAS);
    memcpy(parser.mode_probs.uv_prob, record + CHROMA, CHROMAS);
}

static void put_kept(void)
{
    const GstVp8Segmentation *s = &parser.segmentation;
    const GstVp8MbLfAdjustments *l = &parser.mb_lf_adjust;
    uint8_t record[KEPT];
    record[SEG_ENABLED] = s->segmentation_enabled;
    record[SEG_MAP] = s->update_mb_segmentation_map;
    record[SEG_DATA] = s->update_segment_feature_data;
    record[SEG_MODE] = s->segment_feature_mode;
    memcpy(record + SEG_QUANTS, s->quantizer_update_value, 4);
    memcpy(record + SEG_LEVELS, s->lf_update_value, 4);
    memcpy(record + SEG_PROBS, s->segment_prob, 3);
    record[ADJUST] = l->loop_filter_adj_enable;
    record[ADJUST_UPDATE] = l->mode_ref_lf_delta_update;
    memcpy(record + REF_DELTAS, l->ref_frame_delta, 4);
    memcpy(record + MODE_DELTAS, l->mb_mode_delta, 4);
    memcpy(record + COEFF, parser.token_probs.prob, COEFFS);
    memcpy(record + MOTION, parser.mv_probs.prob, MOTIONS);
    memcpy(record + LUMA, parser.mode_probs.y_prob, LUMAS);
    memcpy(record + CHROMA, parser.mode_probs.uv_prob, CHROMAS);
    put_hex("st", record, KEPT);
}

static void put_told(const GstVp8FrameHdr *h)
{
    const GstVp8QuantIndices *q = &h->quant_indices;
    struct told t = {
        .key = h->key_frame, .ver = h->version, .show = h->show_frame, .chunk = h->data_chunk_size, .first = h->first_part_size,
        .w = h->width, .h = h->height, .hs = h->horiz_scale_code, .vs = h->vert_scale_code, .cs = h->color_space, .ct = h->clamping_type,
        .ft = h->filter_type, .lvl = h->loop_filter_level, .sharp = h->sharpness_level, .log2 = h->log2_nbr_of_dct_partitions,
        .q = {q->y_ac_qi, q->y_dc_delta, q->y2_dc_delta, q->y2_ac_delta, q->uv_dc_delta, q->uv_ac_delta},
        .rep = h->refresh_entropy_probs, .rl = h->refresh_last, .rg = h->refresh_golden_frame, .ra = h->refresh_alternate_frame,
        .cg = h->copy_buffer_to_golden, .ca = h->copy_buffer_to_alternate, .sg = h->sign_bias_golden, .sa = h->sign_bias_alternate,
        .skip = h->mb_no_skip_coeff, .psf = h->prob_skip_false, .pi = h->prob_intra, .pl = h->prob_last, .pg = h->prob_gf,
        .range = h->rd_range, .value = h->rd_value, .count = h->rd_count,
    };
    for (int i = 0; i < 8; i++)
        t.parts[i] = h->partition_size[i];
    memcpy(t.modes, h->mode_probs.y_prob, LUMAS);
    memcpy(t.modes + LUMAS, h->mode_probs.uv_prob, CHROMAS);
    memcpy(t.mv, h->mv_probs.prob, MOTIONS);
    memcpy(t.coeff, h->token_probs.prob, COEFFS);
    put_header(&t);
    printf(" hsize=%u", (unsigned)h->header_size);
}

static void answer(const uint8_t *record, const uint8_t *frame, uint32_t size)
{
    memset(&header, 0, sizeof header);
    load(record);
    GstVp8ParserResult result = gst_vp8_parser_parse_frame_header(&parser, &header, frame, size);
    if (result != GST_VP8_PARSER_OK) {
        printf("stop %d\n", result);
        return;
    }
    put_told(&header);
    put_kept();
    putchar('\n');
}

int main(int argc, char **argv)
{
    gst_vp8_parser_init(&parser);
    if (argc == 2 && !strcmp(argv[1], "start")) {
        put_kept();
        putchar('\n');
        return 0;
    }
    return each_frame("gst", answer);
}
