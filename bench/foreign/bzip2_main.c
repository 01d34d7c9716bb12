/* bzip2_main.c: bzip2 compresses a text, and brings it back. */
#include "bzlib.h"
#include "text.h"

static char packed[LENGTH], again[LENGTH];

void bz_internal_error(int code)
{
    (void)code;
}

/* What bzip2 takes memory by, where it isn't given a function. */
void *malloc(size_t count)
{
    return bytes(count);
}

void free(void *at)
{
    (void)at;
}

uint32_t main(void)
{
    bz_stream to = { 0 }, from = { 0 };
    uint32_t sum, i;

    make_text();
    to.next_in = (char *)text;
    to.avail_in = LENGTH;
    to.next_out = packed;
    to.avail_out = sizeof packed;
    if (BZ2_bzCompressInit(&to, 1, 0, 30) != BZ_OK || BZ2_bzCompress(&to, BZ_FINISH) != BZ_STREAM_END)
        return NO_ROOM;
    from.next_in = packed;
    from.avail_in = to.total_out_lo32;
    from.next_out = again;
    from.avail_out = sizeof again;
    if (BZ2_bzDecompressInit(&from, 0, 0) != BZ_OK || BZ2_bzDecompress(&from) != BZ_STREAM_END)
        return WRONG_RESULT;
    for (i = 0; i < LENGTH; i++)
        if (again[i] != (char)text[i])
            return WRONG_RESULT;
    sum = to.total_out_lo32;
    for (i = 0; i < to.total_out_lo32; i++)
        sum = sum_with(sum, packed[i]);
    return result_of(sum);
}
