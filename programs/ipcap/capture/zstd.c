/* zstd (RFC 8878), by libzstd. Frames that need more memory than libzstd allows by default (128 MiB) are refused. */
#include "capture/compression.h"

#ifdef WITH_ZSTD

#include <stdlib.h>
#include <string.h>
#include <zstd.h>
#include <zstd_errors.h>

/* The bytes with which a frame begins: too few for its header, so that libzstd doesn't decompress it in one piece. */
enum { FIRST_BYTES = 5 };

/* The largest window in bytes, that of which a decoder needs memory without asking, and what a decoder needs besides. */
enum { MOST_WINDOW = 1 << 27, FREE_WINDOW_LOG = 20, MEMORY_BESIDES = 1 << 19 };

/* The maximum number of bytes in the header of a frame, with those of a block's header that libzstd asks for at once. */
enum { HEAD_ROOM = 32 };

/*
 * A decoder that gets no more bytes at once than libzstd asks for. Of a call that fails, libzstd doesn't return what it
 * has decompressed: by this, that is at most a block.
 */
struct decoder {
    ZSTD_DStream *stream;
    size_t wanted;
    const struct memory_source *memory;
    uint64_t asked; /* bytes that were asked for */
    uint8_t head[HEAD_ROOM]; /* the first bytes of the frame that were consumed */
    size_t head_len;
};

static void *begin(const struct memory_source *memory)
{
    struct decoder *decoder = malloc(sizeof *decoder);
    if (!decoder) return NULL;
    *decoder = (struct decoder){.stream = ZSTD_createDStream(), .wanted = FIRST_BYTES, .memory = memory};
    if (decoder->stream && memory) ZSTD_DCtx_setParameter(decoder->stream, ZSTD_d_windowLogMax, FREE_WINDOW_LOG);
    if (decoder->stream) return decoder;
    free(decoder);
    return NULL;
}

/* Returns the number in some bytes, of which the first is the least significant. */
static uint64_t little_number(const uint8_t *bytes, size_t count)
{
    uint64_t number = 0;
    for (size_t i = count; i > 0; i--) number = number << 8 | bytes[i - 1];
    return number;
}

/* Returns the window of a frame by its header, RFC 8878, section 3.1.1.1, or 0 if that isn't complete. */
static uint64_t window_of(const uint8_t *head, size_t len)
{
    enum { DESCRIPTOR_AT = 4, IS_SINGLE = 0x20, AT_LEAST = 1024 };
    static const size_t dictionary_lens[] = {0, 1, 2, 4}, content_lens[] = {1, 2, 4, 8};
    if (len < DESCRIPTOR_AT + 2) return 0;
    uint8_t descriptor = head[DESCRIPTOR_AT], window = head[DESCRIPTOR_AT + 1];
    if (!(descriptor & IS_SINGLE)) {
        uint64_t base = (uint64_t)AT_LEAST << (window >> 3);
        return base + base / 8 * (window & 7);
    }
    size_t at = DESCRIPTOR_AT + 1 + dictionary_lens[descriptor & 3], count = content_lens[descriptor >> 6];
    if (len < at + count) return 0;
    uint64_t content = little_number(head + at, count) + (count == 2 ? 256 : 0);
    return content > AT_LEAST ? content : AT_LEAST;
}

/* Asks for the memory that the frame needs, whose header ends in `in`. Returns false if there isn't enough, or too much is needed. */
static bool raise_limit(struct decoder *decoder, const ZSTD_inBuffer *in, bool *is_refused)
{
    uint8_t head[2 * HEAD_ROOM];
    size_t more = in->size - in->pos < HEAD_ROOM ? in->size - in->pos : HEAD_ROOM;
    memcpy(head, decoder->head, decoder->head_len);
    memcpy(head + decoder->head_len, (const uint8_t *)in->src + in->pos, more);
    uint64_t window = window_of(head, decoder->head_len + more), needed = window + MEMORY_BESIDES;
    if (!decoder->memory || window == 0 || window > MOST_WINDOW) return false;
    *is_refused = needed > decoder->asked && !decoder->memory->ask(decoder->memory->account, needed - decoder->asked);
    if (*is_refused) return false;
    if (needed > decoder->asked) decoder->asked = needed;
    int log = FREE_WINDOW_LOG;
    while ((uint64_t)1 << log < window) log++;
    ZSTD_DCtx_reset(decoder->stream, ZSTD_reset_session_only);
    return !ZSTD_isError(ZSTD_DCtx_setParameter(decoder->stream, ZSTD_d_windowLogMax, log));
}

/* Keeps the first bytes of a frame, from which the frame is begun again with a larger window. */
static void keep_head(struct decoder *decoder, const uint8_t *bytes, size_t len)
{
    size_t room = HEAD_ROOM - decoder->head_len;
    if (len > room) len = room;
    memcpy(decoder->head + decoder->head_len, bytes, len);
    decoder->head_len += len;
}

/* Decompresses, and asks for more memory if a frame needs that. */
static size_t run(struct decoder *decoder, ZSTD_outBuffer *out, ZSTD_inBuffer *in, bool *is_refused)
{
    size_t status = ZSTD_decompressStream(decoder->stream, out, in);
    if (!ZSTD_isError(status) || ZSTD_getErrorCode(status) != ZSTD_error_frameParameter_windowTooLarge) return status;
    if (!raise_limit(decoder, in, is_refused)) return status;
    ZSTD_inBuffer head = {decoder->head, decoder->head_len, 0};
    status = decoder->head_len > 0 ? ZSTD_decompressStream(decoder->stream, out, &head) : 0;
    return ZSTD_isError(status) ? status : ZSTD_decompressStream(decoder->stream, out, in);
}

static enum step decode(void *decoder, struct chunk *chunk)
{
    struct decoder *zstd_decoder = decoder;
    bool is_refused = false;
    size_t len = chunk->in_len < zstd_decoder->wanted ? chunk->in_len : zstd_decoder->wanted;
    ZSTD_inBuffer in = {chunk->in, len, 0};
    ZSTD_outBuffer out = {chunk->out, chunk->out_len, 0};
    size_t status = run(zstd_decoder, &out, &in, &is_refused);
    keep_head(zstd_decoder, chunk->in, in.pos);
    chunk->in += in.pos;
    chunk->in_len -= in.pos;
    chunk->out += out.pos;
    chunk->out_len -= out.pos;
    zstd_decoder->wanted = status == 0 ? FIRST_BYTES : status;
    if (status == 0) zstd_decoder->head_len = 0;
    if (!ZSTD_isError(status)) return status == 0 ? STEP_ENDED : STEP_DONE;
    if (ZSTD_getErrorCode(status) != ZSTD_error_memory_allocation) chunk->error = ZSTD_getErrorName(status);
    if (is_refused) chunk->error = MEMORY_REFUSED;
    return STEP_FAILED;
}

static void end(void *decoder)
{
    struct decoder *zstd_decoder = decoder;
    ZSTD_freeDStream(zstd_decoder->stream);
    free(zstd_decoder);
}

const struct compression zstd = {"zstd", "libzstd", ZSTD_versionString, begin, decode, end, MOST_WINDOW + MEMORY_BESIDES};

#else

const struct compression zstd = {.name = "zstd", .library = "libzstd"};

#endif
