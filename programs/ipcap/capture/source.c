#include "capture/source.h"

#include <errno.h>
#include <fcntl.h>
#include <stdarg.h>
#include <stdio.h>
#include <stdlib.h>
#include <string.h>
#include <sys/stat.h>
#include <unistd.h>

/* What is asked after a signal, or null. */
static bool (*is_waiting_stopped)(void);

void stop_waiting_if(bool (*is_stopped)(void))
{
    is_waiting_stopped = is_stopped;
}

/* Whether a call that failed is made again: a signal's handler has run, and doesn't stop the waiting. Keeps `errno`. */
static bool is_made_again(void)
{
    if (errno != EINTR) return false;
    bool is_stopped = is_waiting_stopped && is_waiting_stopped();
    errno = EINTR;
    return !is_stopped;
}

/* Where the bytes that are read are also written, or -1. */
static int bytes_copy = -1;

void copy_bytes_to(int descriptor)
{
    bytes_copy = descriptor;
}

/* At most this many bytes are decompressed at once. Libraries count some lengths in 32 bits. */
enum { MOST_AT_ONCE = 1 << 24 };

bool is_standard_stream(const char *path)
{
    return !path || strcmp(path, "-") == 0;
}

/* Sets the text of the error, formatted as by printf, and returns -1. */
__attribute__((format(printf, 2, 3))) static ssize_t fail(struct source *source, const char *format, ...)
{
    va_list arguments;
    va_start(arguments, format);
    vsnprintf(source->error, sizeof source->error, format, arguments);
    va_end(arguments);
    return -1;
}

/* Sets the error to that of the system, which is in `errno`, and returns -1. */
static ssize_t fail_as_system(struct source *source)
{
    source->system_error = errno;
    return fail(source, "%s", errno ? strerror(errno) : "read error");
}

/* Writes bytes that were read to the copy, if there is one. Returns false on failure. */
static bool write_copy(struct source *source, const uint8_t *bytes, size_t len)
{
    while (bytes_copy >= 0 && len > 0) {
        ssize_t count = write(bytes_copy, bytes, len);
        if (count < 0 && errno == EINTR) continue;
        if (count <= 0) {
            source->system_error = errno;
            fail(source, "temporary file: %s", strerror(errno));
            return false;
        }
        bytes += count;
        len -= (size_t)count;
    }
    return true;
}

/* Reads bytes of the file, as many as have arrived. Returns their number, 0 at the end of the file, or -1. */
static ssize_t read_file(struct source *source, void *bytes, size_t len)
{
    ssize_t count;
    if (source->wait && !source->is_plain && !source->wait(source->descriptor)) return fail(source, "interrupted");
    do
        count = read(source->descriptor, bytes, len);
    while (count < 0 && is_made_again());
    if (count < 0) return fail_as_system(source);
    if (!write_copy(source, bytes, (size_t)count)) return -1;
    source->is_ended = count == 0;
    source->position += (uint64_t)count;
    return count;
}

/* Reads more bytes of the file after those in the buffer. Returns false on failure. */
static bool fill(struct source *source)
{
    ssize_t count = read_file(source, source->bytes + source->end, sizeof source->bytes - source->end);
    if (count > 0) source->end += (size_t)count;
    return count >= 0;
}

/* Copies bytes of the file as they are. Returns their number, 0 at the end, or -1. */
static ssize_t copy(struct source *source, char *bytes, size_t len)
{
    size_t count = source->end - source->start;
    if (count == 0) return read_file(source, bytes, len);
    if (count > len) count = len;
    memcpy(bytes, source->bytes + source->start, count);
    source->start += count;
    return (ssize_t)count;
}

/* Sets the error of a step that failed, or that could do nothing with the rest of a file. */
static void fail_step(struct source *source, enum step step, const struct chunk *chunk)
{
    const char *name = source->compression->name;
    if (step != STEP_FAILED)
        fail(source, "%s data is truncated", name);
    else if (chunk->error)
        fail(source, "%s data can't be decompressed: %s", name, chunk->error);
    else
        fail(source, "out of memory");
}

/* Decompresses bytes in the buffer. Returns the number of bytes written, also before an error, or else -1. */
static ssize_t decompress(struct source *source, char *bytes, size_t len)
{
    struct chunk chunk = {source->bytes + source->start, source->end - source->start, source->is_ended,
                          (uint8_t *)bytes, len, NULL};
    enum step step = source->compression->decode(source->decoder, &chunk);
    size_t consumed = source->end - source->start - chunk.in_len;
    bool is_stuck = step == STEP_DONE && consumed == 0 && chunk.out_len == len;
    source->start += consumed;
    source->is_complete = step == STEP_ENDED;
    if (step == STEP_FAILED || (is_stuck && source->is_ended)) fail_step(source, step, &chunk);
    return *source->error && chunk.out_len == len ? -1 : (ssize_t)(len - chunk.out_len);
}

/* Whether the last stream is complete and nothing follows it. */
static bool is_at_end(const struct source *source)
{
    return source->is_complete && source->is_ended && source->start == source->end;
}

/* Returns the number of bytes decompressed, 0 at the end, or -1. */
static ssize_t read_compressed(struct source *source, char *bytes, size_t len)
{
    ssize_t count = 0;
    if (len > MOST_AT_ONCE) len = MOST_AT_ONCE;
    while (count == 0 && len > 0 && !is_at_end(source)) {
        if (source->start == source->end && !source->is_ended) {
            source->start = source->end = 0;
            if (!fill(source)) return -1;
        }
        if (!is_at_end(source)) count = decompress(source, bytes, len);
    }
    return count;
}

/* Reads bytes, as many as have arrived. Returns their number, 0 at the end, or -1. After an error, every further call fails. */
static ssize_t read_bytes(struct source *source, void *bytes, size_t len)
{
    if (*source->error) return -1;
    return source->compression ? read_compressed(source, bytes, len) : copy(source, bytes, len);
}

/* Makes room for so many bytes that are ahead: those that are there move to the start, and room grows by whole steps. */
static bool make_room_ahead(struct source *source, size_t len)
{
    struct ahead *ahead = &source->ahead;
    if (ahead->start == ahead->end) ahead->start = ahead->end = 0;
    if (ahead->room - ahead->start >= len && ahead->end < ahead->room) return true;
    if (ahead->start > 0) memmove(ahead->bytes, ahead->bytes + ahead->start, ahead->end - ahead->start);
    ahead->end -= ahead->start;
    ahead->start = 0;
    if (ahead->room >= len) return true;
    size_t room = (len + SOURCE_ROOM - 1) / SOURCE_ROOM * SOURCE_ROOM;
    uint8_t *bytes = realloc(ahead->bytes, room);
    if (!bytes) {
        fail(source, "out of memory");
        return false;
    }
    ahead->bytes = bytes;
    ahead->room = room;
    return true;
}

bool read_ahead(struct source *source, size_t len)
{
    struct ahead *ahead = &source->ahead;
    while (count_ahead(source) < len) {
        if (!make_room_ahead(source, len)) return false;
        ssize_t count = read_bytes(source, ahead->bytes + ahead->end, ahead->room - ahead->end);
        if (count <= 0) return count == 0;
        ahead->end += (size_t)count;
    }
    return true;
}

uint8_t *bytes_ahead(const struct source *source)
{
    return source->ahead.bytes + source->ahead.start;
}

size_t count_ahead(const struct source *source)
{
    return source->ahead.end - source->ahead.start;
}

void skip_ahead(struct source *source, size_t len)
{
    source->ahead.start += len;
}

void close_source(struct source *source)
{
    if (source->decoder) source->compression->end(source->decoder);
    free(source->ahead.bytes);
    if (source->descriptor != STDIN_FILENO) close(source->descriptor);
}

bool is_live(const struct source *source)
{
    struct stat status;
    return fstat(source->descriptor, &status) != 0 || !S_ISREG(status.st_mode);
}

/* Determines whether the file is compressed, and makes the decoder. Returns false on failure. */
static bool begin(struct source *source, const struct memory_source *memory)
{
    while (source->end < COMPRESSION_MAGIC && !source->is_ended)
        if (!fill(source)) return false;
    source->compression = find_compression(source->bytes, source->end);
    if (memory) memory->begin(memory->account, source->compression ? source->compression->most_memory : 0);
    if (!source->compression) return true;
    if (!source->compression->version) {
        fail(source, "%s data can't be decompressed: this ipcap was built without %s", source->compression->name,
             source->compression->library);
        return false;
    }
    source->decoder = source->compression->begin(memory);
    if (!source->decoder) fail(source, "out of memory");
    return source->decoder;
}

/* Opens a file, which waits for a writer if the file is a pipe. Returns its descriptor, or -1 on failure. */
static int open_file(const char *path)
{
    int descriptor;
    do
        descriptor = open(path, O_RDONLY | O_CLOEXEC);
    while (descriptor < 0 && is_made_again());
    return descriptor;
}

bool open_source(struct source *source, const char *path, const struct memory_source *memory)
{
    int descriptor = is_standard_stream(path) ? STDIN_FILENO : open_file(path);
    if (descriptor >= 0) return open_descriptor(source, descriptor, memory);
    *source = (struct source){.descriptor = descriptor};
    fail_as_system(source);
    return false;
}

bool open_descriptor(struct source *source, int descriptor, const struct memory_source *memory)
{
    *source = (struct source){.descriptor = descriptor};
    if (begin(source, memory)) {
        source->is_plain = !source->compression && !is_live(source);
        return true;
    }
    close_source(source);
    return false;
}
