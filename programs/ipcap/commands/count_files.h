/* Counts the packets of files, several files side by side, and hands over the counts in the order of the files. */
#ifndef IPCAP_COUNT_FILES_H
#define IPCAP_COUNT_FILES_H

#include <stdbool.h>
#include <stddef.h>
#include <stdint.h>

#include "capture/capture.h"
#include "counts/counts.h"

/* What is known of a file after it was read. */
struct counted_file {
    const char *path;
    const char *name; /* for messages */
    struct counts counts;
    struct defragmenter *defragmenter; /* what made packets whole, stopped, or null */
    bool is_open;                   /* it could be opened */
    bool is_memory_short;           /* memory ran out, so that the counts are incomplete */
    char error[CAPTURE_ERROR_ROOM]; /* why it couldn't be opened or read to its end, otherwise empty */
};

/* Takes what is known of a file. The counts are released after the call. Returns false to stop. */
typedef bool take_counted_file(struct counted_file *file, void *taker);

/* The files to count. */
struct files {
    const char *const *paths;
    size_t count;
    bool has_tunnels; /* tunnels are followed */
    bool has_whole;   /* whole packets are counted in place of their fragments */
    uint64_t slots;   /* how many packets of a file can be incomplete at once */
    uint64_t chains;  /* how many chains are counted apart */
};

/*
 * Counts the files, each by itself and at most `jobs` of them side by side, and calls `take` for each file, in the
 * order of the paths. Counts them one after another if no threads can be started.
 */
void count_files(const struct files *files, size_t jobs, take_counted_file *take, void *taker);

#endif
