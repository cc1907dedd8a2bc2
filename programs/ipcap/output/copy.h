/* The output of commands, in particular of those that read one capture and write one. Errors are reported. */
#ifndef IPCAP_COPY_H
#define IPCAP_COPY_H

#include "output/output.h"

/*
 * Whether the file `output`, or standard output if that is null or `-`, is the file at a path or on standard input. Opening it
 * for writing would truncate it, and appending to it would never end.
 */
bool is_input(const char *output, const char *path);

/* Whether standard output is one of the files at these paths or on standard input. If so, reports that. */
bool is_any_overwritten(const char *const *paths, size_t count);

/* Whether two outputs, each standard output if it is null or `-`, are the same file. */
bool is_same_output(const char *path, const char *other);

/* Begins an output in the format of a capture: `begin_output` or `begin_long_output`. */
typedef bool begin_call(struct output *output, struct capture *capture, FILE *file);

/*
 * Opens the file `path`, or standard output if that is null or `-`, and begins the output of the capture that was read from
 * `input`. The file must be another one than the input. On failure, reports why and returns false.
 */
bool open_copy(struct output *output, const char *path, struct capture *capture, const char *input, begin_call *begin);

/* Flushes the output. Returns false if that or an earlier write failed, which is reported. */
bool finish_copy(struct output *output, const char *path);

#endif
