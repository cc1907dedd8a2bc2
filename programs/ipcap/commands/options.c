#include "commands/options.h"

#include <errno.h>
#include <getopt.h>
#include <pcap/pcap.h>
#include <stdarg.h>
#include <stdio.h>
#include <string.h>

#include "capture/compression.h"
#include "commands/report.h"
#include "wolfaren.h"

/* A message is cut after this length. */
enum { MOST_MESSAGE = 1024 };

/* Prints the versions of the libraries that decompress. */
static void print_compressions(void)
{
    static const struct compression *const all[] = {&gzip, &zstd, &xz};
    for (size_t i = 0; i < sizeof all / sizeof *all; i++)
        if (all[i]->version) printf("%s %s, for %s\n", all[i]->library, all[i]->version(), all[i]->name);
}

int print_version(void)
{
    errno = 0;
    printf("ipcap %d.%d.%d\n%s\n", WOLFAREN_VERSION_MAJOR, WOLFAREN_VERSION_MINOR, WOLFAREN_VERSION_PATCH,
           pcap_lib_version());
    print_compressions();
    return finish_output() ? STATUS_DONE : STATUS_FAILED;
}

int print_help(const char *usage)
{
    errno = 0;
    fputs(usage, stdout);
    return finish_output() ? STATUS_DONE : STATUS_FAILED;
}

int refuse_usage(const char *program, const char *format, ...)
{
    char message[MOST_MESSAGE];
    va_list arguments;
    va_start(arguments, format);
    vsnprintf(message, sizeof message, format, arguments);
    va_end(arguments);
    complain("%s; see `%s --help`", message, program);
    return STATUS_USAGE;
}

/* What getopt_long returns for long options: one of the first two, or OPTION_ROW plus the index of the row. */
enum { OPTION_HELP = 256, OPTION_VERSION, OPTION_ROW };

static bool is_letter(const struct option_row *row)
{
    return row->name[1] == '\0';
}

/* Returns whether a long option has an argument, as getopt_long wants it. */
static int argument_of(const struct option_row *row)
{
    if (!row->wanted) return no_argument;
    return strncmp(row->wanted, NOTHING_OR, sizeof NOTHING_OR - 1) == 0 ? optional_argument : required_argument;
}

/* Makes the two lists of options that getopt_long needs. The colon makes it return one if an argument is missing. */
static void list_options(const struct option_row *rows, size_t count, char *letters, struct option *options)
{
    *letters++ = ':';
    *letters++ = 'h';
    for (size_t i = 0; i < count; i++) {
        if (!is_letter(&rows[i])) {
            *options++ = (struct option){rows[i].name, argument_of(&rows[i]), NULL, OPTION_ROW + (int)i};
            continue;
        }
        *letters++ = rows[i].name[0];
        if (rows[i].wanted) *letters++ = ':';
    }
    *letters = '\0';
    *options++ = (struct option){"help", no_argument, NULL, OPTION_HELP};
    *options++ = (struct option){"version", no_argument, NULL, OPTION_VERSION};
    *options = (struct option){0};
}

/* Returns the row of an option, or null if it has none. */
static const struct option_row *row_of(const struct option_row *rows, size_t count, int option)
{
    if (option >= OPTION_ROW) return &rows[option - OPTION_ROW];
    for (size_t i = 0; i < count; i++)
        if (is_letter(&rows[i]) && rows[i].name[0] == option) return &rows[i];
    return NULL;
}

static const char *hyphens_of(const struct option_row *row)
{
    return is_letter(row) ? "-" : "--";
}

/* Stores the value of an option. Returns -1, or the exit status on an error. */
static int take_option(const struct option_row *row, const char *program, void *values)
{
    if (row->read(optarg, (char *)values + row->place)) return -1;
    return refuse_usage(program, "%s%s must be %s", hyphens_of(row), row->name, row->wanted);
}

/* Whether a word, up to an equals sign, begins the names of several options. */
static bool is_ambiguous(const char *word, const struct option *options)
{
    size_t count = 0, len = strcspn(word, "=");
    for (; options->name; options++)
        if (strncmp(options->name, word, len) == 0) count++;
    return count > 1;
}

/* Refuses what getopt_long doesn't accept: the last option that it looked at, for which it returned a colon or a question mark. */
static int refuse_option(char **arguments, int answer, const struct option_row *row, const struct option *options)
{
    const char *program = arguments[0], *word = arguments[optind - 1];
    if (row && answer == ':')
        return refuse_usage(program, "%s%s needs an argument: %s", hyphens_of(row), row->name, row->wanted);
    if (row || optopt >= OPTION_HELP)
        return refuse_usage(program, "--%s takes no argument", row ? row->name : optopt == OPTION_HELP ? "help" : "version");
    if (optopt != 0) return refuse_usage(program, "unknown option '-%c'", optopt);
    return refuse_usage(program, "%s option '%s'", is_ambiguous(word + 2, options) ? "ambiguous" : "unknown", word);
}

int read_options(int count, char **arguments, const char *usage, const struct option_row *rows, size_t row_count,
                 void *values)
{
    struct option options[MOST_OPTIONS + 3];
    char letters[2 * MOST_OPTIONS + 3];
    int option, status = -1;
    list_options(rows, row_count, letters, options);
    opterr = 0; /* its messages would have control characters of the arguments */
    while (status < 0 && (option = getopt_long(count, arguments, letters, options, NULL)) != -1) {
        const struct option_row *row = row_of(rows, row_count, option);
        if (row)
            status = take_option(row, arguments[0], values);
        else if (option == OPTION_HELP || option == 'h')
            status = print_help(usage);
        else if (option == OPTION_VERSION)
            status = print_version();
        else
            status = refuse_option(arguments, option, row_of(rows, row_count, optopt), options);
    }
    return status;
}
