/* The counts of struct packet_counts, with their names in JSON and in the tables. */
#ifndef IPCAP_FIELDS_H
#define IPCAP_FIELDS_H

#include <stdbool.h>
#include <stddef.h>
#include <stdint.h>

#include "counts/counts.h"
#include "wolfaren.h"

/* A single count. */
struct scalar {
    const char *name;  /* in JSON: that of the field */
    size_t offset;     /* of the field in struct packet_counts */
    const char *words; /* in the tables */
};

/* A buffer size that is large enough for the name of every element and its terminating null byte. */
enum { ELEMENT_NAME_ROOM = 64 };

/* An array of counts. Only elements that aren't 0 are written. */
struct array {
    const char *name;
    size_t offset;
    size_t len;
    const char *words;
    void (*write_name)(size_t element, char name[ELEMENT_NAME_ROOM]);
    bool (*read_name)(const char *name, size_t *element); /* the element may lie past the array */
    bool has_numbers; /* its elements are protocol numbers */
};

/* The number of fields of each kind, and the largest number of elements of an array. */
enum { SCALARS = 17, ARRAYS = 7, ARRAY_ELEMENTS = 256 };

/* The index of the count of packets, and of that of mismatched ones, which version 1.3 of JSON doesn't have. */
enum { PACKETS = 2, MISMATCHED = SCALARS - 1 };

/*
 * The version of the JSON format. With another major number, members mean something else. With a larger minor number,
 * there are more members, each a count, an object of counts, or a text.
 */
enum { FORMAT_MAJOR = 1, FORMAT_MINOR = 4 };

/* What is before the names of members that count the packets in tunnels. */
#define INNER_PREFIX "inner_"

extern const struct scalar scalars[SCALARS];
extern const struct array arrays[ARRAYS];

/* Return the count of a field, and the first count of an array. */
uint64_t *scalar_in(struct packet_counts *counts, const struct scalar *scalar);
uint64_t *array_in(struct packet_counts *counts, const struct array *array);

#endif
