/* Reads an input twice. What isn't a regular file is copied to a temporary file without a name while it is read. */
#ifndef IPCAP_AGAIN_H
#define IPCAP_AGAIN_H

#include <stdbool.h>
#include <stdint.h>
#include <sys/types.h>

#include "capture/input.h"

/* From where an input is read for the second time. */
struct again {
    int descriptor;    /* the file, or -1 if it wasn't opened */
    off_t start;       /* where the capture begins in it */
    const char *name;  /* that of the first pass, as the next two */
    uint64_t last;     /* number of packets that were read */
    bool was_stopped;  /* by a signal */
};

/*
 * Prepares an input for being read twice, before it is opened. Makes a temporary file if it needs one. Returns false if that fails,
 * which is reported.
 */
bool prepare_again(struct again *again, const char *path);

/* Notes the file of an input that was opened. Returns false without descriptors, which is reported. */
bool keep_file(struct again *again, const struct input *input);

/*
 * Closes an input whose packets were read, and opens it for the second pass, with an account of its own. Stores in `is_read` whether
 * it was read to its end, which is reported otherwise. Returns false if it can't be opened again, which is reported.
 */
bool open_again(struct again *again, struct input *input, bool *is_read);

/* Closes an input that was opened again. If it `is_read` and had less packets than before, reports that and returns false. */
bool close_again(const struct again *again, struct input *input, bool is_read);

/* Closes the file, if there is one. */
void end_again(struct again *again);

#endif
