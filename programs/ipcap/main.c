/* ipcap: counts, filters, draws and changes chains of IP extension headers in captures. */

/* for `O_PATH`, which the GNU C library and musl have */
#define _GNU_SOURCE

#include <fcntl.h>
#include <pcap/pcap.h>
#include <stdio.h>
#include <string.h>
#include <unistd.h>

#include "capture/capture.h"
#include "commands/commands.h"
#include "commands/options.h"
#include "commands/report.h"
#include "commands/stop.h"
#include "wolfaren.h"

static const char usage[] =
    "usage: ipcap stat [-j N] [--defrag] [--json] [--memory SIZE] [--per-file] [--top N] [--tunnels] [FILE..]\n"
    "       ipcap sum [--json] [--top N]\n"
    "       ipcap filter [OPTION..] COND [FILE..]\n"
    "       ipcap filter [OPTION..] -r FILE COND\n"
    "       ipcap filter --show COND\n"
    "       ipcap filter --help-terms\n"
    "       ipcap show [-c N] [--defrag] [--tunnels] [--memory SIZE] [--color=WHEN | --one-line | --json | --csv] [[COND] FILE]\n"
    "       ipcap defrag [--keep] [--tunnels] [--memory SIZE] [--slots N] [--report REPORT] [-w OUTPUT] [FILE]\n"
    "       ipcap rewrite [--without HEADER] [--clear] [--in-order] [--break-authentication] [--tunnels] [--memory SIZE] [-w OUTPUT] [FILE]\n"
    "       ipcap help [COMMAND]\n"
    "       ipcap --help | --version\n"
    "Counts, filters, draws and changes chains of IP extension headers in captures.\n"
    "See `ipcap help COMMAND` for each command, and the manual page ipcap(1).\n";

struct command {
    const char *name;
    char *full_name; /* for the messages of getopt */
    int (*run)(int count, char **arguments);
};

static char stat_name[] = "ipcap stat", sum_name[] = "ipcap sum", filter_name[] = "ipcap filter",
            show_name[] = "ipcap show", defrag_name[] = "ipcap defrag", rewrite_name[] = "ipcap rewrite";

static const struct command commands[] = {
    {"stat", stat_name, run_stat},
    {"sum", sum_name, run_sum},
    {"filter", filter_name, run_filter},
    {"show", show_name, run_show},
    {"defrag", defrag_name, run_defrag},
    {"rewrite", rewrite_name, run_rewrite},
};

/*
 * Makes standard streams that are closed fail as before, but keeps their descriptors from files that are opened, which would
 * get what is written to these streams. Returns false on failure.
 */
static bool hold_streams(void)
{
    int descriptor;
    do
        descriptor = open("/", O_PATH | O_CLOEXEC);
    while (descriptor >= 0 && descriptor <= STDERR_FILENO);
    if (descriptor >= 0) close(descriptor);
    return descriptor >= 0;
}

/* Runs a subcommand, and ends by the signal that stopped it, if there was one. */
static int run_command(const struct command *command, int count, char **arguments)
{
    arguments[0] = command->full_name;
    int status = command->run(count, arguments);
    end_by_signal();
    return status;
}

/* Returns the subcommand with this name, or null. */
static const struct command *find_command(const char *name)
{
    for (size_t i = 0; i < sizeof commands / sizeof *commands; i++)
        if (strcmp(name, commands[i].name) == 0) return &commands[i];
    return NULL;
}

/* Prints the usage text of the subcommand that is named, or that of the program. */
static int help(int count, char **names)
{
    static char option[] = "--help";
    if (count == 0) return print_help(usage);
    const struct command *command = find_command(names[0]);
    if (!command || count > 1) return refuse_usage("ipcap", "unknown command '%.40s'", names[count - 1]);
    return command->run(2, (char *[]){command->full_name, option, NULL});
}

int main(int count, char **arguments)
{
    if (!hold_streams()) return STATUS_FAILED;
    if (count < 2) {
        fputs(usage, stderr);
        return STATUS_USAGE;
    }
    const char *name = arguments[1];
    if (strcmp(name, "help") == 0) return help(count - 2, arguments + 2);
    if (strcmp(name, "--help") == 0 || strcmp(name, "-h") == 0) return print_help(usage);
    if (!pcap_lib_version()) { /* that of load_pcap.c */
        complain("libpcap can't be loaded");
        return STATUS_FAILED;
    }
    if (strcmp(name, "--version") == 0) return print_version();
    if (!wolfaren_cpu_is_supported()) {
        complain(UNSUPPORTED_CPU);
        return STATUS_FAILED;
    }
    const struct command *command = find_command(name);
    return command ? run_command(command, count - 1, arguments + 1) : refuse_usage("ipcap", "unknown command '%.40s'", name);
}
