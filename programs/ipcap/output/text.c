#include "output/text.h"

#include <string.h>

char *append_text(char *place, const char *text)
{
    size_t len = strlen(text);
    memcpy(place, text, len);
    return place + len;
}

char *append_number(char *place, uint64_t number)
{
    size_t count = 1;
    for (uint64_t left = number; left >= 10; left /= 10) count++;
    for (size_t at = count; at > 0; number /= 10) place[--at] = (char)('0' + number % 10);
    return place + count;
}

/* How the first byte of a character says how many bytes it has, by that number, and the least character with them. */
static const struct {
    uint8_t mask;
    uint8_t lead;
    uint32_t least;
} forms[] = {{0, 1, 0}, {0x80, 0, 0}, {0xe0, 0xc0, 0x80}, {0xf0, 0xe0, 0x800}, {0xf8, 0xf0, 0x10000}};

/* Reads a character of `size` bytes in UTF-8. */
static bool read_character(const char *text, size_t size, uint32_t *character)
{
    uint8_t first = (uint8_t)text[0];
    if ((first & forms[size].mask) != forms[size].lead) return false;
    *character = first & (uint8_t)~forms[size].mask;
    for (size_t i = 1; i < size; i++) {
        if (((uint8_t)text[i] & 0xc0) != 0x80) return false;
        *character = *character << 6 | ((uint8_t)text[i] & 0x3f);
    }
    bool is_surrogate = *character >= 0xd800 && *character < 0xe000;
    return *character >= forms[size].least && *character <= 0x10ffff && !is_surrogate;
}

/* Reads a character in UTF-8, or a byte that isn't part of one, and returns the number of bytes. */
static size_t take_character(const char *text, uint32_t *character)
{
    for (size_t size = 1; size < sizeof forms / sizeof *forms; size++)
        if (read_character(text, size, character)) return size;
    *character = 0xdc00 | (uint8_t)text[0];
    return 1;
}

/* Characters that change a terminal or the order in which it shows others: the first and the last of each range. */
static const uint32_t hidden[][2] = {{0, 0x1f}, {0x7f, 0x9f}, {0x61c, 0x61c}, {0x200e, 0x200f}, {0x2028, 0x202e},
                                     {0x2066, 0x2069}, {0xd800, 0xdfff}};

/* Whether a character, or a byte that isn't part of one, may not be shown as it is. */
static bool is_hidden(uint32_t character)
{
    bool is_any = false;
    for (size_t i = 0; i < sizeof hidden / sizeof *hidden; i++)
        is_any |= character >= hidden[i][0] && character <= hidden[i][1];
    return is_any;
}

void write_escaped(FILE *file, const char *text)
{
    uint32_t character;
    for (size_t len; *text; text += len) {
        len = take_character(text, &character);
        for (size_t i = 0; i < len; i++)
            if (is_hidden(character))
                fprintf(file, "\\x%02x", (unsigned)(uint8_t)text[i]);
            else
                fputc(text[i], file);
    }
}

size_t write_columns(FILE *file, const char *text, size_t len, size_t end)
{
    uint32_t character;
    size_t columns = 0;
    for (size_t at = 0, size; at < len; at += size) {
        size = take_character(text + at, &character);
        fprintf(file, "%.*s", is_hidden(character) ? 1 : (int)size, is_hidden(character) ? " " : text + at);
        if (at < end) columns++;
    }
    return columns;
}

static void write_character(FILE *file, uint32_t character)
{
    if (character >= 0x10000) {
        fprintf(file, "\\u%04x", 0xd800 + ((unsigned)(character - 0x10000) >> 10));
        character = 0xdc00 + ((character - 0x10000) & 0x3ff);
    }
    if (character >= ' ' && character <= '~' && character != '"' && character != '\\')
        fputc((int)character, file);
    else
        fprintf(file, "\\u%04x", (unsigned)character);
}

void write_json_text(FILE *file, const char *text)
{
    uint32_t character;
    fputc('"', file);
    while (*text) {
        text += take_character(text, &character);
        write_character(file, character);
    }
    fputc('"', file);
}
