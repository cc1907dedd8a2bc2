#include "packets/names.h"

#include <string.h>

#include "wolfaren.h"

static bool is_word(const char *word, const char *name, size_t len)
{
    return strlen(word) == len && memcmp(word, name, len) == 0;
}

bool find_kind(const char *name, size_t len, uint8_t *kind)
{
    for (*kind = 1; *wolfaren_kind_word(*kind); ++*kind)
        if (is_word(wolfaren_kind_word(*kind), name, len)) return true;
    return false;
}

bool find_layer(const char *name, size_t len, uint8_t *layer)
{
    for (*layer = 1; *wolfaren_layer_word(*layer); ++*layer)
        if (is_word(wolfaren_layer_word(*layer), name, len)) return true;
    return false;
}

bool read_byte_number(const char **text, uint8_t *number)
{
    const char *digits = *text;
    unsigned value = 0;
    while (*digits >= '0' && *digits <= '9') {
        if (digits > *text && value == 0) return false;
        value = value * 10 + (unsigned)(*digits - '0');
        if (value > UINT8_MAX) return false;
        digits++;
    }
    if (digits == *text) return false;
    *text = digits;
    *number = (uint8_t)value;
    return true;
}
