/* The subcommand `filter`. */
#include <errno.h>
#include <getopt.h>
#include <stddef.h>
#include <stdio.h>
#include <stdlib.h>
#include <string.h>
#include <unistd.h>

#include "capture/input.h"
#include "commands/arguments.h"
#include "commands/commands.h"
#include "commands/confine.h"
#include "commands/options.h"
#include "commands/report.h"
#include "commands/stop.h"
#include "conditions/bytecode.h"
#include "conditions/condition.h"
#include "conditions/condition_text.h"
#include "conditions/matching.h"
#include "conditions/terms.h"
#include "output/copy.h"
#include "output/long_output.h"
#include "output/output.h"
#include "output/text.h"
#include "packets/fragments.h"
#include "wolfaren.h"

static const char usage[] =
    "usage: ipcap filter [OPTION..] COND [FILE..]\n"
    "       ipcap filter [OPTION..] -r FILE COND\n"
    "       ipcap filter --show COND\n"
    "       ipcap filter --bytecode[=text] [--undecided keep|drop] COND\n"
    "       ipcap filter --help-terms\n"
    "Writes the packets of each FILE, or standard input, that meet a condition.\n"
    "  COND          `any`, or terms such as `fragment`, `header 44` or `payload > 1000`, combined with `not`, `and`, `or`\n"
    "                and parentheses\n"
    "  -c N          stop after N packets that meet the condition\n"
    "  -n            accepted as for tcpdump, and ignored\n"
    "  -r FILE       read this file, as tcpdump does: all operands are then the condition\n"
    "  -w OUTPUT     write to this file instead of standard output\n"
    "  --since TIME  only packets from this time on, such as 2026-11-28T08:00:00Z or 1795852800 (seconds since 1970)\n"
    "  --until TIME  only packets before this time\n"
    "  --packets A-B only the packets with these numbers in their capture, or with the number A if `-B` is left out\n"
    "  --defrag      whole packets in place of their fragments\n"
    "  --tunnels     also packets in whose tunnels one meets the condition\n"
    "  --memory SIZE use at most so much memory, such as 2G (default: 512M)\n"
    "  --number      write a pcapng file, with each packet's number in its capture as a comment\n"
    "  --show        print the tests that the condition is compiled to, and read no packets\n"
    "  --bytecode    print a program of BPF for packets that begin with an IP header, as `tcpdump -ddd` does, or with\n"
    "                `=text` as `tcpdump -d`\n"
    "  --undecided keep|drop\n"
    "                the program accepts or refuses packets that it can't decide (default: there may be none)\n"
    "  --help-terms  print all terms, each with an example\n"
    "  --help        print this help\n"
    "  --version     print the version\n";

/* The parsed arguments. */
struct request {
    struct wolfaren_filter *condition;
    const char *input;        /* the file of `-r`, or null */
    const char *const *files; /* the paths to read */
    int file_count;
    const char *output;
    uint64_t most;   /* how many packets are written at most */
    uint64_t memory; /* for all files */
    struct timespec since, until;
    struct number_range packets;
    bool has_whole;  /* whole packets are filtered in place of their fragments */
    bool has_tunnels; /* a packet meets the condition if one in its tunnels does */
    bool has_numbers; /* packets have their numbers in comments */
    bool is_numeric; /* ignored */
    bool is_shown;   /* whether the condition is printed, and no capture is read */
    enum bytecode bytecode; /* how its program of BPF is, instead */
    enum undecided undecided;
    bool has_help;   /* whether the terms are printed, and nothing else is done */
};

static const char time_words[] = "a time such as 2026-11-28T08:00:00Z, or a number of seconds since the epoch";

static const struct option_row options[] = {
    {"c", read_count_argument, offsetof(struct request, most), "a number above 0"},
    {"n", set_flag, offsetof(struct request, is_numeric), NULL},
    {"r", read_text_argument, offsetof(struct request, input), "a path"},
    {"w", read_text_argument, offsetof(struct request, output), "a path"},
    {"since", read_time_argument, offsetof(struct request, since), time_words},
    {"until", read_time_argument, offsetof(struct request, until), time_words},
    {"packets", read_range_argument, offsetof(struct request, packets), "a number above 0, or two such as 5-10"},
    {"defrag", set_flag, offsetof(struct request, has_whole), NULL},
    {"tunnels", set_flag, offsetof(struct request, has_tunnels), NULL},
    {"memory", read_memory_argument, offsetof(struct request, memory), MEMORY_WORDS},
    {"number", set_flag, offsetof(struct request, has_numbers), NULL},
    {"show", set_flag, offsetof(struct request, is_shown), NULL},
    {"bytecode", read_bytecode_argument, offsetof(struct request, bytecode), NOTHING_OR "text"},
    {"undecided", read_undecided_argument, offsetof(struct request, undecided), "keep or drop"},
    {"help-terms", set_flag, offsetof(struct request, has_help), NULL},
};

/*
 * The capture that is written. For a single pcapng file, it consists of blocks of that. Otherwise it is a classic file, or
 * with numbers a pcapng file, whose link layer is that of the first file.
 */
struct target {
    struct output output;
    struct matcher matcher;
    const char *name;
    const char *first; /* name of the first file */
    int link_type;     /* one of libpcap's DLT_ values */
    bool has_failed;   /* nothing more can be written, and why was reported */
    bool has_left_out; /* packets of the last file don't fit into the output */
    bool has_empty;    /* there was a file without interfaces */
    bool is_confined;  /* only files for reading can be opened */
};

static bool refuse_output(struct target *target, const char *words)
{
    target->has_failed = true;
    complain("%s: %s", target->name, words);
    return false;
}

/* Whether writing hasn't failed. If it has, reports why. */
static bool is_written(struct target *target)
{
    return has_output_failed(&target->output) ? refuse_output(target, target->output.error) : true;
}

/* Whether the output is one of the files to read. */
static bool is_any_input(const struct request *request)
{
    bool is_any = false;
    for (int i = 0; i < request->file_count && !is_any; i++) is_any = is_input(request->output, request->files[i]);
    return is_any;
}

/* Opens the file that is written, or takes standard output. Returns null on failure, which is reported. */
static FILE *open_target(struct target *target, const struct request *request)
{
    bool is_standard = is_standard_stream(request->output), is_same = is_any_input(request);
    target->name = is_standard ? "standard output" : request->output;
    FILE *file = is_same ? NULL : is_standard ? stdout : fopen(request->output, "wb");
    if (!file) refuse_output(target, is_same ? "input and output are the same file" : strerror(errno));
    return file;
}

/* Opens the output. For a single file, it has the format, the snap length and the timestamp precision of that. */
static bool open_output(struct target *target, const struct request *request, struct capture *capture)
{
    FILE *file = open_target(target, request);
    target->first = capture->name;
    target->output.has_numbers = request->has_numbers;
    target->link_type = capture->link_type;
    if (!file) return false;
    if (request->file_count == 1)
        (request->has_whole ? begin_long_output : begin_output)(&target->output, capture, file);
    else if (begin_joint_output(&target->output, target->link_type, file) && capture->is_live)
        flush_output(&target->output);
    return is_written(target);
}

/* Writes an output without interfaces and packets, if all files that could be read were without. Returns false on failure. */
static bool write_empty_output(struct target *target, const struct request *request)
{
    if (target->output.file || target->has_failed || !target->has_empty) return true;
    FILE *file = open_target(target, request);
    if (!file) return false;
    errno = 0;
    if (begin_empty_output(&target->output, file)) flush_output(&target->output);
    return is_written(target);
}

/* Whether a classic file has the link layer of the output. If not, reports it. Packets of a pcapng file may differ. */
static bool has_link_type(const struct target *target, const struct capture *capture)
{
    if (!capture->is_classic || capture->link_type == target->link_type) return true;
    const char *name = pcap_datalink_val_to_name(capture->link_type);
    const char *first = pcap_datalink_val_to_name(target->link_type);
    complain("%s: link layer %s, but that of %s is %s", capture->name, name ? name : "unknown", target->first,
             first ? first : "unknown");
    return false;
}

/* Returns why a packet of a pcapng file can't be in an output for several files, or null. */
static const char *misfit(const struct target *target, const struct packet *packet)
{
    time_t seconds = packet->time.tv_sec;
    bool has_numbers = target->output.has_numbers;
    time_t last = has_numbers ? (time_t)(UINT64_MAX / 1000000000 - 1) : (time_t)UINT32_MAX;
    if (packet->link_type != target->link_type) return "its link layer isn't that of the output";
    if (seconds < 0 || seconds > last)
        return has_numbers ? "the output has no such time" : "the classic pcap format has no such time";
    if (packet->header.caplen > MOST_SNAP_LEN)
        return has_numbers ? "the output has no such length" : "the classic pcap format has no such length";
    return NULL;
}

/* Whether a packet can be written. The first one of a file that can't is reported. */
static bool does_fit(struct target *target, const struct capture *capture, const struct packet *packet)
{
    const char *reason = packet->block && target->output.is_joint ? misfit(target, packet) : NULL;
    if (reason && !target->has_left_out)
        complain("%s: packet %llu and others like it are left out: %s", capture->name,
                 (unsigned long long)capture->number, reason);
    target->has_left_out |= reason != NULL;
    return !reason;
}

static bool is_before(const struct timespec *time, const struct timespec *other)
{
    return time->tv_sec < other->tv_sec || (time->tv_sec == other->tv_sec && time->tv_nsec < other->tv_nsec);
}

/* Whether the time of a packet is in the range that is asked for. A packet without a time is in no range. */
static bool is_timely(const struct request *request, const struct packet *packet)
{
    if (!packet->has_time) return request->since.tv_sec == INT64_MIN && request->until.tv_sec == INT64_MAX;
    return !is_before(&packet->time, &request->since) && is_before(&packet->time, &request->until);
}

/* Whether a packet meets the condition, and has one of the numbers and times that are asked for. */
static bool is_chosen(const struct request *request, struct matcher *matcher, const struct capture *capture,
                      const struct packet *packet)
{
    return capture->number >= request->packets.first && is_timely(request, packet) && decide(matcher, packet);
}

/* Whether packets that aren't read yet may be written. */
static bool wants_more(const struct request *request, const struct output *output, const struct capture *capture)
{
    return !has_output_failed(output) && output->written < request->most && capture->number < request->packets.last;
}

/* Whether all packets that were written have their numbers. If not, reports that. */
static bool has_all_numbers(struct output *output, const struct capture *capture)
{
    unsigned long long number = output->unnumbered;
    output->unnumbered = 0;
    if (number == 0) return true;
    complain("%s: packet %llu and others like it have no number: with it, their blocks would have more than %d bytes",
             capture->name, number, MOST_BLOCK);
    return false;
}

static bool filter_packets(const struct request *request, struct target *target, struct capture *capture)
{
    struct output *output = &target->output;
    struct packet packet;
    target->has_left_out = false;
    while (wants_more(request, output, capture) && read_packet(capture, &packet))
        if (is_chosen(request, &target->matcher, capture, &packet) && does_fit(target, capture, &packet))
            write_packet(output, capture, &packet);
    errno = 0;
    flush_output(output);
    bool is_numbered = has_all_numbers(output, capture);
    return is_written(target) && is_numbered && !target->has_left_out;
}

/* Filters a capture with whole packets in place of their fragments. */
static bool filter_whole_packets(const struct request *request, struct target *target, struct capture *capture)
{
    struct defragmenter *defragmenter = begin_defragmenter(account_of(capture), slots_within(request->memory),
                                                          request->has_tunnels, false);
    if (!defragmenter) {
        complain_of_memory();
        return false;
    }
    pass_whole(defragmenter, capture);
    bool is_done = filter_packets(request, target, capture);
    stop_defragmenter(defragmenter);
    report_fragments(defragmenter, capture->name);
    is_done &= has_had_memory(defragmenter);
    end_defragmenter(defragmenter);
    return is_done;
}

/* Whether a capture has no link layer, since it is a pcapng file without interfaces, and therefore without packets. */
static bool has_no_link_type(const struct capture *capture)
{
    return !capture->is_classic && !capture->blocks.has_interface;
}

/* Returns the name of a file for comments, with hidden characters escaped, or null if memory runs out. */
static char *escape_name(const char *name)
{
    char *text = NULL;
    size_t len;
    FILE *file = open_memstream(&text, &len);
    if (!file) return NULL;
    write_escaped(file, name);
    if (fclose(file) == 0) return text;
    free(text);
    return NULL;
}

/* Filters a capture for which the output is open. Of several files, its name is in the comments with numbers. */
static bool filter_capture(const struct request *request, struct target *target, struct capture *capture)
{
    bool is_named = request->has_numbers && request->file_count > 1;
    char *name = is_named ? escape_name(capture->name) : NULL;
    if (is_named && !name) {
        complain_of_memory();
        return false;
    }
    target->output.numbered.origin = name;
    bool is_done = (request->has_whole ? filter_whole_packets : filter_packets)(request, target, capture);
    target->output.numbered.origin = NULL;
    free(name);
    return is_done;
}

/* Gives up all but reading further files once the output is open, and that, too, once the last file is. */
static void confine_filter(struct target *target, bool is_last)
{
    if (is_last)
        confine(FILES_NONE);
    else if (!target->is_confined)
        confine(FILES_READ);
    target->is_confined = true;
}

/* Filters a file. If it is the first that could be opened, opens the output. After the last one, no file is opened. */
static bool filter_file(const struct request *request, struct target *target, const char *path, bool is_last)
{
    struct input input;
    struct capture *capture = &input.capture;
    if (!open_input(&input, path, request->file_count == 1)) return false;
    if (!is_standard_stream(request->output)) allow_progress(&input);
    if (request->file_count > 1 && has_no_link_type(capture)) {
        target->has_empty = true;
        return close_input(&input);
    }
    bool is_open = target->output.file ? has_link_type(target, capture) : open_output(target, request, capture);
    if (is_open) confine_filter(target, is_last);
    bool is_done = is_open && filter_capture(request, target, capture);
    return close_input(&input) && is_done;
}

/* Whether another file is to be read. */
static bool wants_files(const struct request *request, const struct target *target)
{
    return target->output.written < request->most && !target->has_failed && !stop_signal;
}

static bool filter_files(const struct request *request)
{
    struct target target = {.matcher = {.condition = request->condition, .has_tunnels = request->has_tunnels}};
    bool is_done = true;
    set_budget(request->memory, request->has_whole ? memory_of_slots(slots_within(request->memory), false) : 0);
    for (int i = 0; i < request->file_count && wants_files(request, &target); i++)
        if (!filter_file(request, &target, request->files[i], i + 1 == request->file_count)) is_done = false;
    if (!write_empty_output(&target, request)) is_done = false;
    end_output(&target.output);
    return is_done;
}

static bool show_condition(const struct request *request)
{
    errno = 0;
    print_program(request->condition);
    return finish_output();
}

/* Prints the condition's program of BPF. Returns the exit status. */
static int show_bytecode(const struct request *request)
{
    errno = 0;
    int status = print_bytecode(request->condition, request->bytecode, request->undecided);
    if (status >= 0) return status;
    return finish_output() ? STATUS_DONE : STATUS_FAILED;
}

static bool list_terms(void)
{
    errno = 0;
    print_terms();
    return finish_output();
}

/* Whether the first word after the condition is a file. If there is none, reports that. */
static bool is_file(const char *path)
{
    if (is_standard_stream(path) || access(path, F_OK) == 0 || errno != ENOENT) return true;
    complain("%s: %s; if it belongs to the condition, an `and` may be missing before it", path, strerror(ENOENT));
    return false;
}

/* Determines the files to read: that of `-r`, the operands after the condition, or standard input. */
static void choose_files(struct request *request, int count, char *const *operands)
{
    request->files = count > 0 ? (const char *const *)operands : (const char *const *)&request->input;
    request->file_count = count > 0 ? count : 1;
}

/* Parses the condition and the file names after it. Returns -1, or the exit status on an error. */
static int read_operands(struct request *request, int count, char *const *operands)
{
    int taken;
    if (count == 0) return refuse_usage("ipcap filter", "filter needs a condition");
    int status = read_condition(request->condition, count, operands, request->input != NULL, &taken);
    if (status >= 0) return status;
    if (request->undecided && !request->bytecode) return refuse_usage("ipcap filter", "--undecided needs --bytecode");
    if (request->is_shown || request->bytecode)
        return request->input || request->output || taken < count
            ? refuse_usage("ipcap filter", "%s takes only a condition", request->is_shown ? "--show" : "--bytecode") : -1;
    if (taken < count && !is_file(operands[taken])) return STATUS_FAILED;
    if (is_standard_stream(request->output) && isatty(STDOUT_FILENO))
        return refuse_usage("ipcap filter", "refusing to write a capture to a terminal: use -w or a pipe");
    choose_files(request, count - taken, operands + taken);
    return -1;
}

int run_filter(int count, char **arguments)
{
    struct wolfaren_filter condition;
    struct request request = {.condition = &condition, .most = UINT64_MAX, .memory = DEFAULT_MEMORY, .packets = {1, UINT64_MAX},
                              .since = {.tv_sec = INT64_MIN}, .until = {.tv_sec = INT64_MAX}};
    int status = read_options(count, arguments, usage, options, sizeof options / sizeof *options, &request);
    if (status < 0 && request.has_help) return list_terms() ? STATUS_DONE : STATUS_FAILED;
    if (status < 0) status = read_operands(&request, count - optind, arguments + optind);
    if (status >= 0) return status;
    if (request.bytecode) return show_bytecode(&request);
    bool is_done = request.is_shown ? show_condition(&request) : filter_files(&request);
    return is_done ? STATUS_DONE : STATUS_FAILED;
}
