#include "conditions/words.h"

#include <string.h>

bool is_space(char byte)
{
    return strchr(" \t\n\r", byte);
}

static bool is_sign(char byte)
{
    return strchr("!&()<=>|", byte);
}

/* Whether a byte that is no white space and the byte after it are in one word, as the library has it. */
static bool joins(char first, char second)
{
    if (!is_sign(first)) return !is_space(second) && !is_sign(second);
    if (second == '=') return first == '!' || first == '<' || first == '>' || first == '=';
    return first == second && (first == '&' || first == '|');
}

size_t word_len(const char *word, size_t len)
{
    size_t size = 1;
    if (is_space(word[0])) return 1;
    while (size < len && joins(word[size - 1], word[size])) size++;
    return size;
}

bool is_word(const char *word, size_t size, const char *wanted)
{
    return strlen(wanted) == size && memcmp(wanted, word, size) == 0;
}
