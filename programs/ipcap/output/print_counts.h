/* Writes statistics. */
#ifndef IPCAP_PRINT_COUNTS_H
#define IPCAP_PRINT_COUNTS_H

#include <stdbool.h>
#include <stdint.h>
#include <stdio.h>

#include "counts/counts.h"

/* How statistics are printed. */
struct form {
    bool json;        /* one line with a JSON object, otherwise tables */
    uint64_t top;     /* number of rows of each table, or 0 for all rows, and 5 of the table of protocols */
    const char *file; /* name of the file, or null to leave it out */
};

/*
 * Writes statistics. Sorts the tables of chains and protocols for that; afterwards nothing may be added to the
 * statistics.
 */
void print_counts(struct counts *counts, FILE *file, const struct form *form);

#endif
