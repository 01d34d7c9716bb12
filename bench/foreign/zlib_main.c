/* zlib_main.c: zlib compresses a text, and brings it back. */
#include "zlib.h"
#include "text.h"

static unsigned char packed[LENGTH], again[LENGTH];

static void *take(void *unused, unsigned count, unsigned size)
{
    (void)unused;
    return bytes(count * size);
}

static void give(void *unused, void *at)
{
    (void)unused;
    (void)at;
}

uint32_t main(void)
{
    z_stream to = { .zalloc = take, .zfree = give }, from = { .zalloc = take, .zfree = give };
    uint32_t i;

    make_text();
    to.next_in = text;
    to.avail_in = LENGTH;
    to.next_out = packed;
    to.avail_out = sizeof packed;
    if (deflateInit(&to, 6) != Z_OK || deflate(&to, Z_FINISH) != Z_STREAM_END)
        return NO_ROOM;
    from.next_in = packed;
    from.avail_in = to.total_out;
    from.next_out = again;
    from.avail_out = sizeof again;
    if (inflateInit(&from) != Z_OK || inflate(&from, Z_FINISH) != Z_STREAM_END || from.total_out != LENGTH)
        return WRONG_RESULT;
    for (i = 0; i < LENGTH; i++)
        if (again[i] != text[i])
            return WRONG_RESULT;
    return result_of(sum_with(to.total_out, crc32(from.adler, packed, to.total_out)));
}
