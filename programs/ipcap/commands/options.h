/* Option parsing shared by the subcommands. */
#ifndef IPCAP_OPTIONS_H
#define IPCAP_OPTIONS_H

#include <stdbool.h>
#include <stddef.h>

/* Begins what an argument must be that may be left out. It is then read as a null pointer. */
#define NOTHING_OR "nothing or "

/* An option of a subcommand. */
struct option_row {
    const char *name;                                /* a long name, or a single letter */
    bool (*read)(const char *argument, void *place); /* one of the calls in arguments.h */
    size_t place;       /* offset of the value in the struct that the options fill in */
    const char *wanted; /* what the argument must be, for messages, or null if the option has no argument */
};

/* The maximum number of options of a subcommand. */
enum { MOST_OPTIONS = 16 };

/* Writes the usage text to standard output and returns the exit status. */
int print_help(const char *usage);

/* Writes the version to standard output and returns the exit status. */
int print_version(void);

/* Reports that a program such as `ipcap stat` was called in a wrong way, formatted as by printf, and returns STATUS_USAGE. */
int refuse_usage(const char *program, const char *format, ...) __attribute__((format(printf, 2, 3)));

/*
 * Parses the options of a subcommand: those in the `row_count` rows, whose values are stored in `values`, and `--help`
 * and `--version`. Returns -1 if the subcommand should run: `optind` is then the index of the first operand. Otherwise
 * returns the exit status.
 */
int read_options(int count, char **arguments, const char *usage, const struct option_row *rows, size_t row_count,
                 void *values);

#endif
