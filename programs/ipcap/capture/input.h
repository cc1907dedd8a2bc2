/* The capture that a command reads: errors are reported, and the progress of a long capture is shown. */
#ifndef IPCAP_INPUT_H
#define IPCAP_INPUT_H

#include <stdbool.h>
#include <sys/types.h>
#include <time.h>

#include "capture/capture.h"
#include "commands/budget.h"

struct input {
    struct capture capture; /* comes first, so that a pointer to it is one to the input */
    bool is_progress_shown; /* there is a progress line on the terminal */
    off_t len;              /* length of the file in bytes, or 0 if unknown */
    struct timespec shown;  /* when the progress line was last updated */
    struct account own;     /* that of `open_input` */
    struct account *account; /* from which memory for the file is taken */
    struct memory_source memory; /* that account for the capture */
};

/* Returns the account of an input by its capture. */
struct account *account_of(struct capture *capture);

/* The progress of reading several files. */
struct files_progress {
    bool is_allowed; /* it may be shown */
    bool is_shown;   /* there is a progress line on the terminal */
    struct timespec shown;
};

/* Begins to measure the progress of files, of which none was read yet. */
void begin_files_progress(struct files_progress *progress);

/* Shows how many of the files were read, once per second. */
void show_files_progress(struct files_progress *progress, size_t done, size_t count);

/* Erases the progress line, if there is one. */
void clear_files_progress(struct files_progress *progress);

/*
 * Opens a file or standard input, as `open_capture` does, and the account. The input must be all zeros. On failure, sets the error of
 * the capture and returns false. Reports nothing.
 */
bool begin_input(struct input *input, const char *path, struct account *account, bool keeps_head);

/* Closes an input. Reports nothing. */
void end_input(struct input *input);

/* Opens a file or standard input, as `open_capture` does, with an account of its own. On failure, reports why and returns false. */
bool open_input(struct input *input, const char *path, bool keeps_head);

/* Opens a file that is open already, as `open_input` does, but keeps no head. It is read to its end: no signal is waited for. */
bool reopen_input(struct input *input, int descriptor, const char *name);

/* Shows progress even if standard output is a terminal. For commands that write nothing to standard output. */
void allow_progress(struct input *input);

/* Closes an input. If it wasn't read to its end because reading failed, reports why and returns false. */
bool close_input(struct input *input);

#endif
