#include "conditions/grouping.h"

#include <stdio.h>
#include <stdlib.h>

#include "commands/report.h"
#include "conditions/words.h"

/* A word, and whether parentheses belong around the operands of `and` that start or end with it. */
struct grouped_word {
    const char *start;
    size_t size;
    bool opens, closes;
};

/* The operands that `and` joins after an `or`, at one level of parentheses. */
struct level {
    size_t first; /* index of their first word; 0 before any `or` */
    bool is_open; /* there are several of them */
};

static bool is_either(const struct grouped_word *word, const char *name, const char *sign)
{
    return is_word(word->start, word->size, name) || is_word(word->start, word->size, sign);
}

static bool is_side(const struct grouped_word *word)
{
    return is_either(word, "src", "dst");
}

/* Whether the word at an index joins `src` and `dst`, and not operands. */
static bool joins_sides(const struct grouped_word *words, size_t index, size_t count)
{
    return index > 0 && index + 1 < count && is_side(&words[index - 1]) && is_side(&words[index + 1]);
}

/* Ends the operands of a level before the word at an index. */
static void end_operands(struct level *level, struct grouped_word *words, size_t index)
{
    if (level->is_open) words[index - 1].closes = true;
    level->is_open = false;
}

/* Goes past an operator. */
static void pass_operator(struct level *level, struct grouped_word *words, size_t index)
{
    if (is_either(&words[index], "or", "||")) {
        end_operands(level, words, index);
        level->first = index + 1;
    } else if (is_either(&words[index], "and", "&&") && level->first > 0) {
        words[level->first].opens = level->is_open = true;
    }
}

/* Marks the words around the operands of each `and` that follows an `or`, and returns whether there are any. */
static bool mark_words(struct grouped_word *words, size_t count, struct level *levels)
{
    bool is_any = false;
    size_t depth = 0;
    levels[0] = (struct level){0, false};
    for (size_t i = 0; i < count; i++) {
        if (is_word(words[i].start, words[i].size, "(")) {
            levels[++depth] = (struct level){0, false};
        } else if (is_word(words[i].start, words[i].size, ")")) {
            end_operands(&levels[depth--], words, i);
        } else if (!joins_sides(words, i, count)) {
            pass_operator(&levels[depth], words, i);
        }
        is_any = is_any || levels[depth].is_open;
    }
    end_operands(&levels[0], words, count);
    return is_any;
}

static void print_words(const struct grouped_word *words, size_t count)
{
    for (size_t i = 0; i < count; i++)
        fprintf(stderr, "%s%s%.*s%s", i > 0 ? " " : "", words[i].opens ? "( " : "", (int)words[i].size, words[i].start,
                words[i].closes ? " )" : "");
    fputc('\n', stderr);
}

/* Splits the text into words, and returns their number. */
static size_t split(const char *text, size_t len, struct grouped_word *words)
{
    size_t count = 0;
    for (size_t at = 0, size; at < len; at += size) {
        size = word_len(text + at, len - at);
        if (!is_space(text[at])) words[count++] = (struct grouped_word){text + at, size, false, false};
    }
    return count;
}

bool tell_grouping(const char *text, size_t len)
{
    struct grouped_word *words = calloc(len + 1, sizeof *words);
    struct level *levels = calloc(len + 1, sizeof *levels);
    bool has_memory = words && levels;
    size_t count = has_memory ? split(text, len, words) : 0;
    if (has_memory && mark_words(words, count, levels)) {
        complain("condition: `and` binds more tightly than `or`, unlike in tcpdump; read as:");
        fputs("  ", stderr);
        print_words(words, count);
    }
    free(levels);
    free(words);
    return has_memory;
}
