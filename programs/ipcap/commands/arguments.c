#include "commands/arguments.h"

#include <stdio.h>
#include <string.h>
#include <time.h>

#include "commands/budget.h"
#include "wolfaren.h"

bool set_flag(const char *argument, void *place)
{
    (void)argument;
    *(bool *)place = true;
    return true;
}

bool read_text_argument(const char *argument, void *place)
{
    *(const char **)place = argument;
    return true;
}

/* Reads a decimal number, and advances `text` past it. */
static bool take_number(const char **text, uint64_t *number)
{
    const char *digits = *text;
    *number = 0;
    for (; **text >= '0' && **text <= '9'; ++*text) {
        unsigned digit = (unsigned)(**text - '0');
        if (*number > (UINT64_MAX - digit) / 10) return false;
        *number = *number * 10 + digit;
    }
    return *text > digits;
}

bool read_count_argument(const char *argument, void *place)
{
    uint64_t *count = place;
    return take_number(&argument, count) && *argument == '\0' && *count > 0;
}

bool read_memory_argument(const char *argument, void *place)
{
    static const char units[] = "KMG";
    uint64_t *bytes = place;
    if (!take_number(&argument, bytes)) return false;
    const char *unit = *argument ? strchr(units, *argument) : NULL;
    int power = unit ? (int)(unit - units + 1) * 10 : 0;
    if (*bytes > UINT64_MAX >> power) return false;
    *bytes <<= power;
    return argument[unit ? 1 : 0] == '\0' && *bytes >= LEAST_MEMORY;
}

bool read_range_argument(const char *argument, void *place)
{
    struct number_range *range = place;
    if (!take_number(&argument, &range->first)) return false;
    range->last = range->first;
    if (*argument == '-') {
        argument++;
        if (!take_number(&argument, &range->last)) return false;
    }
    return *argument == '\0' && range->first > 0 && range->first <= range->last;
}

/* How long the name of a header can be, with a word before it. */
enum { MOST_TERM = 64 };

bool read_header_argument(const char *argument, void *place)
{
    static const char letters[] = "-0123456789ABCDEFXabcdefghijklmnopqrstuvwxyz";
    char term[MOST_TERM];
    struct wolfaren_filter filter;
    struct wolfaren_filter_error error;
    uint64_t *headers = place;
    int len = snprintf(term, sizeof term, "header %s", argument);
    bool is_word = len < MOST_TERM && argument[strspn(argument, letters)] == '\0';
    if (!is_word || !wolfaren_parse_filter(term, (size_t)len, &filter, &error)) return false;
    const struct wolfaren_filter_test *test = &filter.tests[0];
    if (test->kind != WOLFAREN_TEST_FLAGS || test->number == 0) return false;
    *headers |= test->number;
    return true;
}

/* A number of two or four digits, and the characters of which one follows it, or none. */
struct digits {
    int count;
    int least;
    int most;
    const char *after;
};

static const struct digits time_fields[] = {{4, 0, 9999, "-"}, {2, 1, 12, "-"}, {2, 1, 31, "Tt "},
                                            {2, 0, 23, ":"},   {2, 0, 59, ":"}, {2, 0, 60, ""}};
static const struct digits offset_fields[] = {{2, 0, 23, ":"}, {2, 0, 59, ""}};

enum { TIME_FIELDS = sizeof time_fields / sizeof *time_fields };

/* Reads digits and the character after them, and advances `text` past these. */
static bool take_digits(const char **text, const struct digits *digits, int *value)
{
    *value = 0;
    for (int i = 0; i < digits->count; i++, ++*text) {
        if (**text < '0' || **text > '9') return false;
        *value = *value * 10 + (**text - '0');
    }
    if (*value < digits->least || *value > digits->most) return false;
    if (*digits->after == '\0') return true;
    return **text != '\0' && strchr(digits->after, *(*text)++);
}

/* Reads a point and up to 9 digits, if there is a point, and advances `text` past these. */
static bool take_fraction(const char **text, long *nanoseconds)
{
    long unit = 100000000;
    *nanoseconds = 0;
    if (**text != '.') return true;
    const char *first = ++*text;
    for (; **text >= '0' && **text <= '9' && unit > 0; ++*text) {
        *nanoseconds += (**text - '0') * unit;
        unit /= 10;
    }
    return *text > first;
}

/* Reads an offset from UTC in seconds: `Z`, hours and minutes after a sign, or nothing. */
static bool take_offset(const char **text, int *seconds)
{
    int hours, minutes;
    char sign = **text;
    *seconds = 0;
    if (sign == '\0') return true;
    ++*text;
    if (sign == 'Z' || sign == 'z') return true;
    if (sign != '+' && sign != '-') return false;
    if (!take_digits(text, &offset_fields[0], &hours) || !take_digits(text, &offset_fields[1], &minutes)) return false;
    *seconds = (hours * 60 + minutes) * (sign == '-' ? -60 : 60);
    return true;
}

/* Converts year, month, day, hours, minutes and seconds to seconds since the epoch. Returns false for an invalid day. */
static bool read_calendar(const int fields[TIME_FIELDS], time_t *seconds)
{
    struct tm date = {.tm_year = fields[0] - 1900, .tm_mon = fields[1] - 1, .tm_mday = fields[2]};
    *seconds = timegm(&date) + (fields[3] * 60 + fields[4]) * 60 + fields[5];
    return date.tm_mday == fields[2];
}

static bool take_date(const char **text, struct timespec *time)
{
    int fields[TIME_FIELDS], offset;
    for (size_t i = 0; i < TIME_FIELDS; i++)
        if (!take_digits(text, &time_fields[i], &fields[i])) return false;
    if (!take_fraction(text, &time->tv_nsec) || !take_offset(text, &offset)) return false;
    if (!read_calendar(fields, &time->tv_sec)) return false;
    time->tv_sec -= offset;
    return true;
}

static bool take_seconds(const char **text, struct timespec *time)
{
    uint64_t seconds;
    if (!take_number(text, &seconds) || seconds > INT64_MAX) return false;
    time->tv_sec = (time_t)seconds;
    return take_fraction(text, &time->tv_nsec);
}

bool read_time_argument(const char *argument, void *place)
{
    bool is_read = strchr(argument, '-') ? take_date(&argument, place) : take_seconds(&argument, place);
    return is_read && *argument == '\0';
}
