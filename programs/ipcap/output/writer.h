/*
 * Text for standard output. It is collected in a buffer, since a call of printf for each part takes most of the time. The
 * functions are in line, so that a compiler copies a text of known length without a loop.
 */
#ifndef IPCAP_WRITER_H
#define IPCAP_WRITER_H

#include <stdbool.h>
#include <stddef.h>
#include <stdint.h>
#include <string.h>

#include "output/text.h"

enum { WRITER_ROOM = 1 << 16 };

/* Text that isn't on standard output yet. Set `len` to 0 before its first use. */
struct writer {
    size_t len;
    char bytes[WRITER_ROOM];
};

/* Hands the text over to `stdout`. If that fails, its error indicator is set, and `errno` says why. */
void end_text(struct writer *writer);

/*
 * Returns where the next bytes of the text belong, with room for `room` of them, at most WRITER_ROOM. Whoever fills some
 * of them passes their number to `add_bytes`.
 */
static inline char *next_bytes(struct writer *writer, size_t room)
{
    if (room > WRITER_ROOM - writer->len) end_text(writer);
    return writer->bytes + writer->len;
}

static inline void add_bytes(struct writer *writer, size_t count)
{
    writer->len += count;
}

static inline void put_byte(struct writer *writer, char byte)
{
    *next_bytes(writer, 1) = byte;
    add_bytes(writer, 1);
}

static inline void put_repeated(struct writer *writer, char byte, size_t count)
{
    memset(next_bytes(writer, count), byte, count);
    add_bytes(writer, count);
}

static inline void put_text(struct writer *writer, const char *text)
{
    size_t len = strlen(text);
    memcpy(next_bytes(writer, len), text, len);
    add_bytes(writer, len);
}

/* Writes a number in decimal. */
static inline void put_number(struct writer *writer, uint64_t number)
{
    char *place = next_bytes(writer, NUMBER_DIGITS);
    add_bytes(writer, (size_t)(append_number(place, number) - place));
}

/* Writes the last so many digits of a number in decimal. */
static inline void put_digits(struct writer *writer, uint32_t number, size_t digits)
{
    char *place = next_bytes(writer, digits);
    for (size_t i = digits; i > 0; number /= 10) place[--i] = (char)('0' + number % 10);
    add_bytes(writer, digits);
}

/* Writes the last so many digits of a number in hexadecimal. */
static inline void put_hexadecimal(struct writer *writer, uint64_t number, size_t digits)
{
    char *place = next_bytes(writer, digits);
    for (size_t i = digits; i > 0; number >>= 4) place[--i] = "0123456789abcdef"[number & 0x0f];
    add_bytes(writer, digits);
}

#endif
