/* Reads statistics from JSON. */
#ifndef IPCAP_READ_COUNTS_H
#define IPCAP_READ_COUNTS_H

#include <stdbool.h>
#include <stdint.h>
#include <stdio.h>

#include "counts/counts.h"

/* An input of JSON objects, one after another. */
struct json_input {
    FILE *file;
    int next; /* the next byte, or EOF */
    uint64_t line;
    uint64_t column;
};

/* Starts reading from a file. */
void begin_json(struct json_input *input, FILE *file);

/* Whether there is anything but white space left in the input. */
bool has_more_json(struct json_input *input);

/*
 * Reads an object written by `print_counts` into `counts`, which must be those of no packets. White space is accepted
 * where JSON allows it, and members in any order. Members that aren't known are skipped if the version has our major
 * number and a larger minor number. Anything else is an error: reports where and why, and returns false.
 */
bool read_json(struct json_input *input, struct counts *counts);

#endif
