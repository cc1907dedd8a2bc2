/* The formats of compressed data that captures may have, and how each is decompressed by a library of the system. */
#ifndef IPCAP_COMPRESSION_H
#define IPCAP_COMPRESSION_H

#include <stdbool.h>
#include <stddef.h>
#include <stdint.h>

/* The maximum number of bytes that say which format it is. */
enum { COMPRESSION_MAGIC = 6 };

/* What a step of decompression reads and writes. The step advances the pointers and reduces the lengths. */
struct chunk {
    const uint8_t *in;
    size_t in_len;
    bool is_last; /* no more input follows */
    uint8_t *out;
    size_t out_len;
    const char *error; /* why the step has failed, or null if memory ran out */
};

enum step {
    STEP_DONE,  /* more input, or more room for output, is needed */
    STEP_ENDED, /* a stream is complete: the input may end here, or another stream follows */
    STEP_FAILED
};

/* From whom memory is taken, besides a little that each decoder has. */
struct memory_source {
    void (*begin)(void *account, uint64_t most); /* called before the first bytes are taken, of which there will be so many at most */
    bool (*ask)(void *account, uint64_t bytes);  /* takes bytes, or returns false if there are too few */
    void *account;                               /* for both calls */
};

/* Why a decoder fails that gets too little. */
#define MEMORY_REFUSED "more memory needed than the budget allows"

struct compression {
    const char *name;
    const char *library;          /* the library that decompresses it */
    const char *(*version)(void); /* returns the version of the library; null if the program is built without it */
    void *(*begin)(const struct memory_source *memory); /* returns a decoder, or null if memory runs out */
    enum step (*decode)(void *decoder, struct chunk *chunk);
    void (*end)(void *decoder);
    uint64_t most_memory; /* for how many bytes a decoder asks at most */
};

extern const struct compression gzip, zstd, xz;

/* Returns the format of which these are the first bytes, or null if they are those of no compressed data. */
const struct compression *find_compression(const uint8_t *bytes, size_t len);

#endif
