/* xz (The .xz File Format 1.1.0), by liblzma. */
#include "capture/compression.h"

#ifdef WITH_LZMA

#include <lzma.h>
#include <stdlib.h>

/* The most memory that a stream may need, `xz -9` needs 65 MiB, and what it may need without asking. */
enum { MEMORY_LIMIT = 256 << 20, MEMORY_FREE = 1 << 20 };

struct decoder {
    lzma_stream stream;
    const struct memory_source *memory;
    uint64_t asked; /* bytes that were asked for */
};

static void *begin(const struct memory_source *memory)
{
    struct decoder *decoder = calloc(1, sizeof *decoder);
    uint64_t limit = memory ? MEMORY_FREE : MEMORY_LIMIT;
    if (decoder && lzma_stream_decoder(&decoder->stream, limit, LZMA_CONCATENATED) == LZMA_OK) {
        decoder->memory = memory;
        return decoder;
    }
    free(decoder);
    return NULL;
}

/* Asks for the memory that the stream needs. Returns false if there isn't enough. */
static bool raise_limit(struct decoder *decoder)
{
    uint64_t needed = lzma_memusage(&decoder->stream);
    if (!decoder->memory || needed > MEMORY_LIMIT) return false;
    if (needed > decoder->asked && !decoder->memory->ask(decoder->memory->account, needed - decoder->asked)) return false;
    if (needed > decoder->asked) decoder->asked = needed;
    return lzma_memlimit_set(&decoder->stream, needed) == LZMA_OK;
}

/* Returns why a call of `lzma_code` has failed, or null if memory ran out. */
static const char *reason(lzma_stream *stream, lzma_ret status)
{
    switch (status) {
        case LZMA_MEM_ERROR: return NULL;
        case LZMA_MEMLIMIT_ERROR:
            return lzma_memusage(stream) > MEMORY_LIMIT ? "more than 256 MiB of memory needed" : MEMORY_REFUSED;
        case LZMA_FORMAT_ERROR: return "no xz stream where one must begin";
        case LZMA_OPTIONS_ERROR: return "unsupported options";
        default: return "corrupt data";
    }
}

static enum step decode(void *decoder, struct chunk *chunk)
{
    lzma_stream *stream = &((struct decoder *)decoder)->stream;
    lzma_action action = chunk->is_last ? LZMA_FINISH : LZMA_RUN;
    stream->next_in = chunk->in;
    stream->avail_in = chunk->in_len;
    stream->next_out = chunk->out;
    stream->avail_out = chunk->out_len;
    lzma_ret status = lzma_code(stream, action);
    while (status == LZMA_MEMLIMIT_ERROR && raise_limit(decoder)) status = lzma_code(stream, action);
    chunk->in = stream->next_in;
    chunk->in_len = stream->avail_in;
    chunk->out = stream->next_out;
    chunk->out_len = stream->avail_out;
    if (status == LZMA_OK || status == LZMA_BUF_ERROR) return STEP_DONE;
    if (status == LZMA_STREAM_END) return STEP_ENDED;
    chunk->error = reason(stream, status);
    return STEP_FAILED;
}

static void end(void *decoder)
{
    lzma_end(&((struct decoder *)decoder)->stream);
    free(decoder);
}

const struct compression xz = {"xz", "liblzma", lzma_version_string, begin, decode, end, MEMORY_LIMIT};

#else

const struct compression xz = {.name = "xz", .library = "liblzma"};

#endif
