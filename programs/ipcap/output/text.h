/* Writes numbers, and texts from outside, such as names of files. */
#ifndef IPCAP_TEXT_H
#define IPCAP_TEXT_H

#include <stdbool.h>
#include <stdint.h>
#include <stdio.h>

/* The greatest number of digits that a number has. */
enum { NUMBER_DIGITS = 20 };

/* Write a text, or a number in decimal, without a null byte after it, to where there is room. Return its end. */
char *append_text(char *place, const char *text);
char *append_number(char *place, uint64_t number);

/*
 * Writes a text in which the bytes of some characters are escaped, such as `\x1b`: control characters, of ASCII and of C1, those
 * that change the direction of a text, separators of lines, and bytes that aren't UTF-8.
 */
void write_escaped(FILE *file, const char *text);

/*
 * Writes `len` bytes of a text, with a space for each such character, in one column for each character. Returns the number of
 * columns before the byte `end`. A character must not go on after the text.
 */
size_t write_columns(FILE *file, const char *text, size_t len, size_t end);

/*
 * Writes a text in quotes as in JSON, in printable ASCII without a quote or a backslash in it except in escapes such as
 * `\u00e9`. The text should be UTF-8: any other byte is written as Python's `surrogateescape` decodes it, 0xff as
 * `\udcff`.
 */
void write_json_text(FILE *file, const char *text);

#endif
