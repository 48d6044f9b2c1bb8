/* What the readers share: a kept record and a frame come in, a line goes out, in the keys of docs/RULES.md ("The programs"), so that it
   can be held against the port's word by word. Each frame is read from the record given with it, and nothing else is remembered. */
#ifndef PEER_H
#define PEER_H
#include <stdint.h>
#include <stdio.h>
#include <stdlib.h>
#include <string.h>

/* Places in the kept record (docs/RULES.md, "What is kept"). */
enum {
    SEG_ENABLED = 0,
    SEG_MAP = 1,
    SEG_DATA = 2,
    SEG_MODE = 3,
    SEG_QUANTS = 4,
    SEG_LEVELS = 8,
    SEG_PROBS = 12,
    ADJUST = 15,
    ADJUST_UPDATE = 16,
    REF_DELTAS = 17,
    MODE_DELTAS = 21,
    COEFF = 25,
    MOTION = 1081,
    LUMA = 1119,
    CHROMA = 1123,
    KEPT = 1126
};

enum { COEFFS = 1056, MOTIONS = 38, LUMAS = 4, CHROMAS = 3 };

/* A header as a reader tells it, by the names of the dump's keys; 0 where it has none. */
struct told {
    unsigned key, ver, show, chunk, first, w, h, hs, vs, cs, ct, ft, lvl, sharp, log2, parts[8];
    int q[6];
    unsigned rep, rl, rg, ra, cg, ca, sg, sa, skip, psf, pi, pl, pg;
    uint8_t modes[LUMAS + CHROMAS], mv[MOTIONS], coeff[COEFFS];
    unsigned range, value, count;
};

static void put_hex(const char *key, const uint8_t *bytes, size_t n)
{
    char text[2 * KEPT];
    for (size_t i = 0; i < n; i++) {
        text[2 * i] = "0123456789abcdef"[bytes[i] >> 4];
        text[2 * i + 1] = "0123456789abcdef"[bytes[i] & 15];
    }
    printf(" %s=", key);
    fwrite(text, 1, 2 * n, stdout);
}

static void put_header(const struct told *t)
{
    printf("ok key=%u ver=%u show=%u chunk=%u first=%u w=%u h=%u hs=%u vs=%u cs=%u ct=%u", t->key, t->ver, t->show, t->chunk, t->first,
           t->w, t->h, t->hs, t->vs, t->cs, t->ct);
    printf(" ft=%u lvl=%u sharp=%u n=%u log2=%u parts=%u", t->ft, t->lvl, t->sharp, 1u << t->log2, t->log2, t->parts[0]);
    for (int i = 1; i < 8; i++)
        printf(",%u", t->parts[i]);
    printf(" q=%d,%d,%d,%d,%d,%d", t->q[0], t->q[1], t->q[2], t->q[3], t->q[4], t->q[5]);
    printf(" rep=%u rl=%u rg=%u ra=%u cg=%u ca=%u sg=%u sa=%u", t->rep, t->rl, t->rg, t->ra, t->cg, t->ca, t->sg, t->sa);
    printf(" skip=%u psf=%u pi=%u pl=%u pg=%u", t->skip, t->psf, t->pi, t->pl, t->pg);
    put_hex("modes", t->modes, sizeof t->modes);
    put_hex("mv", t->mv, sizeof t->mv);
    put_hex("coeff", t->coeff, sizeof t->coeff);
    printf(" range=%u value=%u count=%u", t->range, t->value, t->count);
}

static int cut_short(const char *name)
{
    fprintf(stderr, "%s: the input is cut short\n", name);
    return 2;
}

/* Standard input to its end: a kept record of 1,126 bytes, a 4-byte length, least significant first, and the frame. A frame has a block
   of its own, so that a read past its end shows under a sanitizer. */
static int each_frame(const char *name, void (*answer)(const uint8_t *record, const uint8_t *frame, uint32_t size))
{
    uint8_t head[KEPT + 4];
    size_t got;
    while ((got = fread(head, 1, sizeof head, stdin)) == sizeof head) {
        const uint8_t *l = head + KEPT;
        uint32_t size = l[0] | l[1] << 8 | l[2] << 16 | (uint32_t)l[3] << 24;
        uint8_t *frame = malloc(size ? size : 1);
        if (!frame || fread(frame, 1, size, stdin) != size)
            return cut_short(name);
        answer(head, frame, size);
        free(frame);
    }
    return got ? cut_short(name) : 0;
}

#endif
