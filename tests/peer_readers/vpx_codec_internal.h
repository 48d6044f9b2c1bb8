/* What the program printed in RFC 6386 wants of a header that goes on to one the RFC leaves out: results, the picture's type, and how an
   error is told, which rfc.c decides. */
#ifndef VPX_CODEC_INTERNAL_H
#define VPX_CODEC_INTERNAL_H
#include <setjmp.h>
#include <stddef.h>
#include <stdint.h>

/* Numbered as in libvpx. */
typedef enum {
    VPX_CODEC_OK = 0,
    VPX_CODEC_UNSUP_BITSTREAM = 5,
    VPX_CODEC_CORRUPT_FRAME = 7
} vpx_codec_err_t;

/* No picture is made. */
typedef struct {
    int none;
} vpx_image_t;

struct vpx_internal_error_info {
    vpx_codec_err_t error_code;
    int has_detail;
    char detail[80];
    jmp_buf jmp;
};

void vpx_internal_error(struct vpx_internal_error_info *info, vpx_codec_err_t code, const char *format, ...);

#endif
