/* gzip (RFC 1952), by zlib. */
#include "capture/compression.h"

#ifdef WITH_ZLIB

#include <stdlib.h>
#include <zlib.h>

/* The largest window, and 16 for the format of gzip instead of zlib's own. */
enum { WINDOW_BITS = 15 + 16 };

static void *begin(const struct memory_source *memory)
{
    (void)memory; /* it needs less than 64 KB */
    z_stream *stream = calloc(1, sizeof *stream);
    if (stream && inflateInit2(stream, WINDOW_BITS) == Z_OK) return stream;
    free(stream);
    return NULL;
}

/* Returns the outcome of a call of `inflate`. Another member may follow one that is complete. */
static enum step outcome(z_stream *stream, struct chunk *chunk, int status)
{
    if (status == Z_OK || status == Z_BUF_ERROR) return STEP_DONE;
    if (status == Z_STREAM_END && inflateReset(stream) == Z_OK) return STEP_ENDED;
    if (status == Z_MEM_ERROR) return STEP_FAILED;
    chunk->error = stream->msg ? stream->msg : "unsupported data";
    return STEP_FAILED;
}

static enum step decode(void *decoder, struct chunk *chunk)
{
    z_stream *stream = decoder;
    stream->next_in = (z_const Bytef *)chunk->in;
    stream->avail_in = (uInt)chunk->in_len;
    stream->next_out = chunk->out;
    stream->avail_out = (uInt)chunk->out_len;
    int status = inflate(stream, Z_NO_FLUSH);
    chunk->in = stream->next_in;
    chunk->in_len = stream->avail_in;
    chunk->out = stream->next_out;
    chunk->out_len = stream->avail_out;
    return outcome(stream, chunk, status);
}

static void end(void *decoder)
{
    inflateEnd(decoder);
    free(decoder);
}

const struct compression gzip = {"gzip", "zlib", zlibVersion, begin, decode, end, 0};

#else

const struct compression gzip = {.name = "gzip", .library = "zlib"};

#endif
