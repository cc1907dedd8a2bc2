/* The bytes of a capture: of a file or standard input, decompressed if they are compressed. */
#ifndef IPCAP_SOURCE_H
#define IPCAP_SOURCE_H

#include <stdbool.h>
#include <stddef.h>
#include <stdint.h>

#include "capture/compression.h"

/* How many bytes of a file are kept until they are decompressed, and at least how many are read ahead at once. */
enum { SOURCE_ROOM = 1 << 16 };

/* A buffer size that is large enough for the text of every error. */
enum { SOURCE_ERROR_ROOM = 128 };

/* The bytes that were read, decompressed, and not yet skipped: those from `start` to `end`. */
struct ahead {
    uint8_t *bytes;
    size_t start, end, room;
};

struct source {
    int descriptor;
    bool is_plain;     /* a regular file that isn't compressed, so that its bytes needn't be waited for */
    bool is_ended;     /* nothing more comes from the file */
    bool is_complete;  /* the last compressed stream is complete */
    uint64_t position; /* number of bytes read from the file */
    size_t start, end; /* where the bytes that were read and not yet decompressed are in `bytes` */
    const struct compression *compression; /* null if the bytes aren't compressed */
    void *decoder;
    bool (*wait)(int descriptor); /* called before bytes are read, unless it is null; returns false if none are wanted */
    char error[SOURCE_ERROR_ROOM]; /* why opening or reading failed, otherwise empty */
    int system_error;              /* the `errno` of that if the system refused it, otherwise 0 */
    struct ahead ahead;
    uint8_t bytes[SOURCE_ROOM];
};

/*
 * Sets what is asked if the handler of a signal has run while a file was opened or read. If that returns true, opening or
 * reading fails; otherwise, or if nothing is set, it goes on.
 */
void stop_waiting_if(bool (*is_stopped)(void));

/* Whether a path stands for standard input or output: it is null or `-`. */
bool is_standard_stream(const char *path);

/*
 * Sets an open file to which all bytes that are read are also written, except those of a regular file that isn't compressed, or
 * -1 for none. If writing fails, so does reading, and nothing is read that wasn't written.
 */
void copy_bytes_to(int descriptor);

/*
 * Opens a file or standard input. Its bytes are decompressed if the first ones are those of a known format. Decompression asks
 * `memory`, or takes what it needs if that is null. On failure, sets `error` and returns false, and there is nothing to close.
 */
bool open_source(struct source *source, const char *path, const struct memory_source *memory);

/* Opens a file that is open, as `open_source` does. Closes the file on failure, too. */
bool open_descriptor(struct source *source, int descriptor, const struct memory_source *memory);

/*
 * Reads on until so many bytes are ahead, and more only if they have arrived. At the end of the file, fewer may be. Those that
 * are ahead may move. Returns false if that fails, and sets `error`; what was read before stays there.
 */
bool read_ahead(struct source *source, size_t len);

/* Returns the bytes that are ahead, which may be changed. They stay where they are until more are read. */
uint8_t *bytes_ahead(const struct source *source);

/* Returns the number of these bytes. */
size_t count_ahead(const struct source *source);

/* Skips bytes that are ahead. */
void skip_ahead(struct source *source, size_t len);

/* Closes a source that was opened. */
void close_source(struct source *source);

/* Whether the file isn't a regular one, so that its bytes may arrive as they are captured. */
bool is_live(const struct source *source);

#endif
