/* The program printed in RFC 6386 (section 20), asked for its reading of single frames: the C files that cut.py cuts out of the RFC's
   text are included as they are, and the program's own call for a frame is made. Modes, tokens and pixels are left out: the functions
   for them do nothing here, but that the first one that is lent the boolean decoder, right after the header, takes the header down.
   Call: rfc < PAIRS (peer.h), or `rfc start`, which prints the record of a fresh parser by the program's own tables.
   A line is `ok` with the dump's keys, or `stop`, the code and the text of the program's error. Its last keys:
     noted      what the program would refuse, and is let go on with: e for an experimental version, r for reserved bits; else -
     flags      of a delta update, for each of the eight deltas whether its own flag was set; else -
     doublings  how often the decoder has doubled (- in the plain build), and bools, how many it has read */
#include "peer.h"
#include <stdarg.h>

static unsigned long seen_bools, seen_doublings;
#include "bool_decoder.h"

/* Whether the next flag is set, by a copy of the decoder; what the copy reads does not count. */
static int flag_ahead(const struct bool_decoder *d)
{
    struct bool_decoder copy = *d;
    unsigned long bools = seen_bools, doublings = seen_doublings;
    int set = bool_get_bit(&copy);
    seen_bools = bools;
    seen_doublings = doublings;
    return set;
}

/* The program makes a delta without its flag 0 and does not keep the flag; it is noted here. Six bits wide are four segment levels,
   where there is feature data, and then eight deltas, where they are updated. */
static int wide_reads;
static char wide_flags[13];

static int noted_maybe_get_int(struct bool_decoder *d, int bits)
{
    if (bits == 6)
        wide_flags[wide_reads++] = '0' + flag_ahead(d);
    return bool_maybe_get_int(d, bits);
}

#define bool_maybe_get_int noted_maybe_get_int
#include "dixie.c"
#include "modemv_data.h"

static struct vp8_decoder_ctx ctx;
static struct told told;
static int header_seen;
static char noted[3];

/* An experimental version and set reserved bits are noted, and the program goes on, so that the rest of the header is judged too. */
void vpx_internal_error(struct vpx_internal_error_info *info, vpx_codec_err_t code, const char *format, ...)
{
    va_list values;
    int reserved = !strncmp(format, "Reserved", 8);
    if (reserved || !strncmp(format, "Experimental", 12)) {
        strcat(noted, reserved ? "r" : "e");
        return;
    }
    va_start(values, format);
    vsnprintf(info->detail, sizeof info->detail, format, values);
    va_end(values);
    info->error_code = code;
    longjmp(info->jmp, 1);
}

static void take_probs(const struct vp8_entropy_hdr *e, uint8_t *coeff, uint8_t *mv, uint8_t *luma, uint8_t *chroma)
{
    memcpy(coeff, e->coeff_probs, COEFFS);
    memcpy(mv, e->mv_probs, MOTIONS);
    memcpy(luma, e->y_mode_probs, LUMAS);
    memcpy(chroma, e->uv_mode_probs, CHROMAS);
}

static void take_chunk(const struct vp8_frame_hdr *f)
{
    told.key = f->is_keyframe;
    told.ver = f->version | f->is_experimental << 2;
    told.show = f->is_shown;
    told.chunk = told.key ? 10 : 3;
    told.first = f->part0_sz;
    if (told.key) {
        told.w = f->kf.w;
        told.h = f->kf.h;
        told.hs = f->kf.scale_w;
        told.vs = f->kf.scale_h;
    }
}

static void take_header(const struct bool_decoder *d)
{
    const struct vp8_quant_hdr *q = &ctx.quant_hdr;
    const struct vp8_reference_hdr *r = &ctx.reference_hdr;
    const struct vp8_entropy_hdr *e = &ctx.entropy_hdr;
    take_chunk(&ctx.frame_hdr);
    told.ft = ctx.loopfilter_hdr.use_simple;
    told.lvl = ctx.loopfilter_hdr.level;
    told.sharp = ctx.loopfilter_hdr.sharpness;
    while (1u << told.log2 < ctx.token_hdr.partitions)
        told.log2++;
    memcpy(told.parts, ctx.token_hdr.partition_sz, sizeof told.parts);
    int quants[6] = {q->q_index, q->y1_dc_delta_q, q->y2_dc_delta_q, q->y2_ac_delta_q, q->uv_dc_delta_q, q->uv_ac_delta_q};
    memcpy(told.q, quants, sizeof told.q);
    told.rep = r->refresh_entropy;
    told.rl = r->refresh_last;
    told.rg = r->refresh_gf;
    told.ra = r->refresh_arf;
    told.cg = r->copy_gf;
    told.ca = r->copy_arf;
    told.sg = r->sign_bias[GOLDEN_FRAME];
    told.sa = r->sign_bias[ALTREF_FRAME];
    told.skip = e->coeff_skip_enabled;
    told.psf = e->coeff_skip_prob;
    told.pi = e->prob_inter;
    told.pl = e->prob_last;
    told.pg = e->prob_gf;
    take_probs(e, told.coeff, told.mv, told.modes, told.modes + LUMAS);
    if (told.key) {
        memcpy(told.modes, kf_y_mode_probs, LUMAS);
        memcpy(told.modes + LUMAS, kf_uv_mode_probs, CHROMAS);
    }
    told.range = d->range;
    told.value = d->value >> 8;
    told.count = (8 - d->bit_count) % 8;
}

/* Called for each row of macroblocks with the decoder as the header left it. */
void vp8_dixie_modemv_process_row(struct vp8_decoder_ctx *c, struct bool_decoder *d, int row, int start, int n)
{
    if (header_seen++ == 0)
        take_header(d);
}

void vp8_dixie_modemv_init(struct vp8_decoder_ctx *c) {}
void vp8_dixie_modemv_destroy(struct vp8_decoder_ctx *c) {}
void vp8_dixie_tokens_init(struct vp8_decoder_ctx *c) {}
void vp8_dixie_tokens_destroy(struct vp8_decoder_ctx *c) {}
void vp8_dixie_tokens_process_row(struct vp8_decoder_ctx *c, unsigned part, unsigned row, unsigned start, unsigned n) {}
void vp8_dixie_predict_init(struct vp8_decoder_ctx *c) {}
void vp8_dixie_predict_destroy(struct vp8_decoder_ctx *c) {}
void vp8_dixie_predict_process_row(struct vp8_decoder_ctx *c, unsigned row, unsigned start, unsigned n) {}
void vp8_dixie_loopfilter_process_row(struct vp8_decoder_ctx *c, unsigned row, unsigned start, unsigned n) {}
void vp8_dixie_release_ref_frame(struct ref_cnt_img *image) {}
struct ref_cnt_img *vp8_dixie_ref_frame(struct ref_cnt_img *image) { return image; }

/* The program drops the two bits at a key frame's start; they are read again by its decoder. */
static void take_reserved(const uint8_t *frame)
{
    struct bool_decoder d;
    unsigned long bools = seen_bools, doublings = seen_doublings;
    init_bool_decoder(&d, frame + 10, told.first);
    told.cs = bool_get_bit(&d);
    told.ct = bool_get_bit(&d);
    seen_bools = bools;
    seen_doublings = doublings;
}

static void load(const uint8_t *record)
{
    struct vp8_segment_hdr *s = &ctx.segment_hdr;
    struct vp8_loopfilter_hdr *l = &ctx.loopfilter_hdr;
    s->enabled = record[SEG_ENABLED];
    s->update_map = record[SEG_MAP];
    s->update_data = record[SEG_DATA];
    s->abs = record[SEG_MODE];
    for (int i = 0; i < 4; i++) {
        s->quant_idx[i] = (int8_t)record[SEG_QUANTS + i];
        s->lf_level[i] = (int8_t)record[SEG_LEVELS + i];
        l->ref_delta[i] = (int8_t)record[REF_DELTAS + i];
        l->mode_delta[i] = (int8_t)record[MODE_DELTAS + i];
    }
    for (int i = 0; i < 3; i++)
        s->tree_probs[i] = record[SEG_PROBS + i];
    l->delta_enabled = record[ADJUST];
    memcpy(ctx.entropy_hdr.coeff_probs, record + COEFF, COEFFS);
    memcpy(ctx.entropy_hdr.mv_probs, record + MOTION, MOTIONS);
    memcpy(ctx.entropy_hdr.y_mode_probs, record + LUMA, LUMAS);
    memcpy(ctx.entropy_hdr.uv_mode_probs, record + CHROMA, CHROMAS);
}

static void store(uint8_t *record, int deltas_updated)
{
    const struct vp8_segment_hdr *s = &ctx.segment_hdr;
    const struct vp8_loopfilter_hdr *l = &ctx.loopfilter_hdr;
    record[SEG_ENABLED] = s->enabled;
    record[SEG_MAP] = s->update_map;
    record[SEG_DATA] = s->update_data;
    record[SEG_MODE] = s->abs;
    for (int i = 0; i < 4; i++) {
        record[SEG_QUANTS + i] = s->quant_idx[i];
        record[SEG_LEVELS + i] = s->lf_level[i];
        record[REF_DELTAS + i] = l->ref_delta[i];
        record[MODE_DELTAS + i] = l->mode_delta[i];
    }
    for (int i = 0; i < 3; i++)
        record[SEG_PROBS + i] = s->tree_probs[i];
    record[ADJUST] = l->delta_enabled;
    record[ADJUST_UPDATE] = deltas_updated;
    take_probs(&ctx.entropy_hdr, record + COEFF, record + MOTION, record + LUMA, record + CHROMA);
}

static void put_answer(void)
{
    uint8_t record[KEPT];
    int levels = ctx.segment_hdr.update_data ? 4 : 0, updated = wide_reads > levels;
    store(record, updated);
    put_header(&told);
    put_hex("st", record, KEPT);
    if (told.key)
        printf(" cols=%u rows=%u", ctx.mb_cols, ctx.mb_rows);
    else
        printf(" cols=0 rows=0");
    printf(" noted=%s flags=%s", *noted ? noted : "-", updated ? wide_flags + levels : "-");
#ifdef COUNTED
    printf(" doublings=%lu bools=%lu\n", seen_doublings, seen_bools);
#else
    printf(" doublings=- bools=-\n");
#endif
}

static void answer(const uint8_t *record, const uint8_t *frame, uint32_t size)
{
    memset(&ctx, 0, sizeof ctx);
    memset(&told, 0, sizeof told);
    memset(wide_flags, 0, sizeof wide_flags);
    memset(noted, 0, sizeof noted);
    wide_reads = header_seen = 0;
    seen_bools = seen_doublings = 0;
    load(record);
    /* An inter frame has no size; one row is enough to see its header. */
    ctx.mb_rows = ctx.mb_cols = 1;
    if (vp8_dixie_decode_frame(&ctx, frame, size)) {
        printf("stop %d %s\n", ctx.error.error_code, ctx.error.detail);
        return;
    }
    if (told.key)
        take_reserved(frame);
    put_answer();
}

/* By the program's tables; all else is 0, as it clears it at a key frame. */
static void start(void)
{
    uint8_t record[KEPT];
    memcpy(ctx.entropy_hdr.coeff_probs, k_default_coeff_probs, COEFFS);
    memcpy(ctx.entropy_hdr.mv_probs, k_default_mv_probs, MOTIONS);
    memcpy(ctx.entropy_hdr.y_mode_probs, k_default_y_mode_probs, LUMAS);
    memcpy(ctx.entropy_hdr.uv_mode_probs, k_default_uv_mode_probs, CHROMAS);
    store(record, 0);
    put_hex("st", record, KEPT);
    putchar('\n');
}

int main(int argc, char **argv)
{
    if (argc == 2 && !strcmp(argv[1], "start")) {
        start();
        return 0;
    }
    return each_frame("rfc", answer);
}
