/* The subcommands `stat` and `sum`. */
#include <errno.h>
#include <getopt.h>
#include <stddef.h>
#include <stdint.h>
#include <stdio.h>
#include <unistd.h>

#include "capture/input.h"
#include "commands/arguments.h"
#include "commands/commands.h"
#include "commands/confine.h"
#include "commands/count_files.h"
#include "commands/options.h"
#include "commands/report.h"
#include "counts/counts.h"
#include "counts/read_counts.h"
#include "output/copy.h"
#include "output/print_counts.h"
#include "packets/fragments.h"

static const char stat_usage[] =
    "usage: ipcap stat [-j N] [--chains N] [--defrag] [--json] [--memory SIZE] [--per-file] [--top N] [--tunnels]\n"
    "                  [FILE..]\n"
    "Counts the packets of each FILE, or standard input, by their IP extension headers.\n"
    "  -j N           count at most N files side by side; without it, as many as there are processors\n"
    "  --chains N     count at most N different chains, and further ones as other (default: 65536)\n"
    "  --defrag       count whole packets in place of their fragments\n"
    "  --json         print a JSON object of counts, which `ipcap sum` reads, instead of tables\n"
    "  --memory SIZE  use at most so much memory, such as 2G (default: 512M)\n"
    "  --per-file     print the counts of each file, with its name, instead of their sum\n"
    "  --top N        print at most N rows of each table, and the sum of the others; JSON has all rows\n"
    "  --tunnels      also count the packets in tunnels: IP in IP, GRE, GTP-U, VXLAN and Geneve\n"
    "  --help         print this help\n"
    "  --version      print the version\n";

static const char sum_usage[] =
    "usage: ipcap sum [--chains N] [--json] [--top N]\n"
    "Adds up JSON objects written by `ipcap stat --json`, read one after another from standard input.\n"
    "  --chains N  count at most N different chains, and further ones as other (default: 65536)\n"
    "  --json      print a JSON object instead of tables\n"
    "  --top N     print at most N rows of each table, and the sum of the others; JSON has all rows\n"
    "  --help      print this help\n"
    "  --version   print the version\n";

/* The values of the options. */
struct request {
    bool json;
    bool is_per_file;
    bool has_tunnels;
    bool has_whole; /* whole packets are counted in place of their fragments */
    uint64_t top;
    uint64_t jobs; /* 0 if not given */
    uint64_t memory;
    uint64_t chains; /* how many are counted apart */
};

static const struct option_row options[] = {
    {"json", set_flag, offsetof(struct request, json), NULL},
    {"top", read_count_argument, offsetof(struct request, top), "a number above 0"},
    {"chains", read_count_argument, offsetof(struct request, chains), "a number above 0"},
    /* not of `sum` */
    {"per-file", set_flag, offsetof(struct request, is_per_file), NULL},
    {"tunnels", set_flag, offsetof(struct request, has_tunnels), NULL},
    {"j", read_count_argument, offsetof(struct request, jobs), "a number above 0"},
    {"defrag", set_flag, offsetof(struct request, has_whole), NULL},
    {"memory", read_memory_argument, offsetof(struct request, memory), MEMORY_WORDS},
};

enum { STAT_OPTIONS = sizeof options / sizeof *options, SUM_OPTIONS = STAT_OPTIONS - 5 };

/* Writes statistics, with the name of their file unless it is null. Returns false if writing fails. */
static bool write_counts(const struct request *request, struct counts *counts, const char *file)
{
    struct form form = {request->json, request->top, file};
    errno = 0;
    print_counts(counts, stdout, &form);
    return finish_output();
}

/* What the files have given so far. */
struct summary {
    const struct request *request;
    struct counts total; /* unless files are printed one by one */
    bool is_any;         /* a file could be opened */
    bool is_run_out;     /* chains of a file were counted as other, which was reported */
    bool is_done;        /* nothing failed */
};

/* Reports that there were more chains than are counted apart. Returns whether there were. */
static bool report_chains(const struct counts *counts, const char *name)
{
    if (!has_other_chains(counts)) return false;
    complain("%s: more than %zu different chains: others are counted as other, see --chains", name, counts->outer.chains.limit);
    return true;
}

/* Reports what failed while a file was read. Returns false if anything did. */
static bool report_file(const struct counted_file *file)
{
    if (file->defragmenter) report_fragments(file->defragmenter, file->name);
    if (*file->error) complain("%s: %s", file->name, file->error);
    if (file->is_memory_short) complain_of_memory();
    return !*file->error && !file->is_memory_short && (!file->defragmenter || has_had_memory(file->defragmenter));
}

static bool add_file(struct counted_file *file, void *place)
{
    struct summary *summary = place;
    if (!report_file(file)) summary->is_done = false;
    if (file->is_open) summary->is_any = true;
    if (report_chains(&file->counts, file->name)) summary->is_run_out = true;
    if (merge_counts(&summary->total, &file->counts)) return true;
    complain_of_memory();
    return summary->is_done = false;
}

static bool write_file(struct counted_file *file, void *place)
{
    struct summary *summary = place;
    if (!report_file(file)) summary->is_done = false;
    report_chains(&file->counts, file->name);
    if (!file->is_open || write_counts(summary->request, &file->counts, file->path)) return true;
    return summary->is_done = false;
}

/* Returns how many files are counted side by side. Standard input is read in turn if it is given several times. */
static size_t choose_jobs(const struct request *request, const char *const *paths, size_t count)
{
    size_t standard = 0;
    long processors = sysconf(_SC_NPROCESSORS_ONLN);
    for (size_t i = 0; i < count; i++)
        if (is_standard_stream(paths[i])) standard++;
    if (standard > 1) return 1;
    return request->jobs > 0 ? request->jobs : processors > 0 ? (size_t)processors : 1;
}

/* Counts the files, and writes their statistics unless no file can be opened. */
static bool run_request(const struct request *request, const char *const *paths, size_t count)
{
    if (is_any_overwritten(paths, count)) return false;
    struct summary summary = {.request = request, .is_done = true};
    struct files files = {paths, count, request->has_tunnels, request->has_whole, slots_within(request->memory),
                          request->chains};
    set_budget(request->memory, request->has_whole ? memory_of_slots(files.slots, false) : 0);
    init_counts(&summary.total, request->has_tunnels, request->chains);
    size_t jobs = choose_jobs(request, paths, count);
    confine(FILES_READ);
    count_files(&files, jobs, request->is_per_file ? write_file : add_file, &summary);
    if (!summary.is_run_out) report_chains(&summary.total, "all files");
    bool is_written = request->is_per_file || !summary.is_any || write_counts(request, &summary.total, NULL);
    free_counts(&summary.total);
    return summary.is_done && is_written;
}

int run_stat(int count, char **arguments)
{
    static const char *const standard_input[] = {"-"};
    struct request request = {.memory = DEFAULT_MEMORY, .chains = DEFAULT_CHAINS};
    int status = read_options(count, arguments, stat_usage, options, STAT_OPTIONS, &request);
    if (status >= 0) return status;
    bool is_standard = optind == count;
    const char *const *paths = is_standard ? standard_input : (const char *const *)(arguments + optind);
    return run_request(&request, paths, is_standard ? 1 : (size_t)(count - optind)) ? STATUS_DONE : STATUS_FAILED;
}

/* Reads the next object and adds it to the total. */
static bool add_object(struct json_input *input, struct counts *total)
{
    struct counts counts;
    init_counts(&counts, false, total->outer.chains.limit);
    bool is_read = read_json(input, &counts);
    bool is_added = is_read && merge_counts(total, &counts);
    free_counts(&counts);
    if (is_read && !is_added) complain_of_memory();
    return is_added;
}

/* Adds up all objects. There must be at least one. */
static bool add_objects(struct counts *total)
{
    struct json_input input;
    bool is_any = false;
    begin_json(&input, stdin);
    while (has_more_json(&input)) {
        if (!add_object(&input, total)) return false;
        is_any = true;
    }
    if (ferror(stdin))
        complain("standard input: read error");
    else if (!is_any)
        complain("standard input: no statistics found");
    return is_any && !ferror(stdin);
}

int run_sum(int count, char **arguments)
{
    struct counts total;
    struct request request = {.chains = DEFAULT_CHAINS};
    int status = read_options(count, arguments, sum_usage, options, SUM_OPTIONS, &request);
    if (status >= 0) return status;
    if (optind != count) return refuse_usage("ipcap sum", "sum reads standard input and takes no file name");
    init_counts(&total, false, request.chains);
    confine(FILES_NONE);
    bool is_done = add_objects(&total);
    if (is_done) report_chains(&total, "standard input");
    is_done = is_done && write_counts(&request, &total, NULL);
    free_counts(&total);
    return is_done ? STATUS_DONE : STATUS_FAILED;
}
