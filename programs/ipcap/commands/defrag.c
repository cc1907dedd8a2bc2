/* The subcommand `defrag`. */
#include <getopt.h>
#include <stddef.h>
#include <unistd.h>

#include "capture/input.h"
#include "commands/again.h"
#include "commands/arguments.h"
#include "commands/commands.h"
#include "commands/confine.h"
#include "commands/options.h"
#include "commands/report.h"
#include "output/copy.h"
#include "output/long_output.h"
#include "packets/fragments.h"

static const char usage[] =
    "usage: ipcap defrag [--keep] [--tunnels] [--memory SIZE] [--slots N] [--report REPORT] [-w OUTPUT] [FILE]\n"
    "Writes the packets of FILE, or standard input, with whole packets in place of their fragments.\n"
    "  -w OUTPUT        write to this file instead of standard output\n"
    "  --keep           also write the fragments that make no packet whole, where they were\n"
    "  --memory SIZE    use at most so much memory, such as 2G (default: 512M)\n"
    "  --report REPORT  write a line for each packet that wasn't made whole to this file\n"
    "  --slots N        keep the fragments of at most N packets at once (default: 4096)\n"
    "  --tunnels        also make the packets in tunnels whole\n"
    "  --help           print this help\n"
    "  --version        print the version\n";

/* The values of the options. */
struct request {
    const char *output;
    const char *report;
    uint64_t slots; /* 0 if not given */
    uint64_t memory;
    bool keeps;
    bool has_tunnels;
};

static const struct option_row options[] = {
    {"w", read_text_argument, offsetof(struct request, output), "a path"},
    {"report", read_text_argument, offsetof(struct request, report), "a path"},
    {"slots", read_count_argument, offsetof(struct request, slots), "a number above 0"},
    {"memory", read_memory_argument, offsetof(struct request, memory), MEMORY_WORDS},
    {"keep", set_flag, offsetof(struct request, keeps), NULL},
    {"tunnels", set_flag, offsetof(struct request, has_tunnels), NULL},
};

/* Writes the packets that are read, up to the one with the number `last`. */
static void write_packets(struct output *output, struct capture *capture, uint64_t last)
{
    struct packet packet;
    while (!has_output_failed(output) && read_packet(capture, &packet) && capture->number <= last)
        write_packet(output, capture, &packet);
}

/* Reads all packets, and reports which fragments made none whole. Writes the others unless `output` is null. */
static void defragment_packets(struct output *output, struct defragmenter *defragmenter, struct capture *capture)
{
    struct packet packet;
    pass_whole(defragmenter, capture);
    if (output)
        write_packets(output, capture, UINT64_MAX);
    else
        while (read_packet(capture, &packet)) {}
    stop_defragmenter(defragmenter);
    report_fragments(defragmenter, capture->name);
}

/* Reads an input twice: to find the fragments that are kept, and to write them in their places. Closes it. */
static bool write_in_place(struct output *output, const struct request *request, struct defragmenter *defragmenter,
                           struct input *input, struct again *again)
{
    struct capture *capture = &input->capture;
    block_call *copy = capture->copy;
    bool is_read;
    capture->copy = NULL;
    defragment_packets(NULL, defragmenter, capture);
    if (!open_again(again, input, &is_read)) return false;
    if (!is_standard_stream(request->output)) allow_progress(input);
    capture->copy = copy;
    capture->copier = output;
    pass_whole(defragmenter, capture);
    bool is_begun = begin_second_pass(defragmenter, request->slots, again->last);
    if (is_begun)
        write_packets(output, capture, again->last);
    else
        complain_of_memory();
    return close_again(again, input, is_begun && !has_output_failed(output)) && is_begun && is_read;
}

/* Opens the report, if one is asked for, and then the output. Returns false on failure, which is reported. */
static bool open_outputs(const struct request *request, struct defragmenter *defragmenter, struct loss_report *report,
                         struct output *output, struct capture *capture, const char *path)
{
    if (request->report) {
        if (!open_report(report, request->report, path, request->output)) return false;
        if (capture->is_live) report_at_once(report);
        report_losses(defragmenter, report);
    }
    return open_copy(output, request->output, capture, path, begin_long_output);
}

/* Writes all packets of an open input, and closes it. */
static bool write_all(struct output *output, const struct request *request, struct defragmenter *defragmenter, struct input *input,
                      struct again *again)
{
    bool is_done;
    if (request->keeps) {
        is_done = write_in_place(output, request, defragmenter, input, again);
        return finish_copy(output, request->output) && is_done && has_had_memory(defragmenter);
    }
    defragment_packets(output, defragmenter, &input->capture);
    is_done = finish_copy(output, request->output);
    return close_input(input) && is_done && has_had_memory(defragmenter);
}

/* Makes packets of an open input whole, and closes it. */
static bool defragment_input(const struct request *request, const char *path, struct input *input, struct again *again)
{
    struct output output = {0};
    struct loss_report report = {0};
    if (!is_standard_stream(request->output)) allow_progress(input);
    struct defragmenter *defragmenter = begin_defragmenter(&input->own, request->slots, request->has_tunnels,
                                                          request->keeps);
    if (!defragmenter) complain_of_memory();
    bool is_open = defragmenter && open_outputs(request, defragmenter, &report, &output, &input->capture, path);
    if (is_open) confine(FILES_NONE);
    bool is_done = is_open && write_all(&output, request, defragmenter, input, again);
    bool is_reported = finish_report(&report);
    end_output(&output);
    end_defragmenter(defragmenter);
    end_report(&report);
    if (!is_open) close_input(input);
    return is_done && is_reported;
}

static bool defragment_file(const struct request *request, const char *path)
{
    struct input input;
    struct again again = {.descriptor = -1};
    set_budget(request->memory, memory_of_slots(request->slots, request->report));
    bool is_prepared = !request->keeps || prepare_again(&again, path);
    bool is_done = false;
    if (is_prepared && open_input(&input, path, true)) {
        bool is_kept = !request->keeps || keep_file(&again, &input);
        is_done = is_kept && defragment_input(request, path, &input, &again);
        if (!is_kept) close_input(&input);
    }
    end_again(&again);
    return is_done;
}

/* Chooses the number of slots unless it is given. Returns -1, or the exit status if the budget is too small for it. */
static int choose_slots(struct request *request)
{
    uint64_t room = memory_for_file(request->memory), needed = memory_of_slots(request->slots, request->report);
    if (request->slots == 0) request->slots = slots_within(request->memory);
    if (needed <= room) return -1;
    unsigned long long slots = request->slots, least = needed > UINT64_MAX / 2 ? 0 : (needed + request->memory - room + 0xfffff) >> 20;
    if (least == 0) return refuse_usage("ipcap defrag", "--slots %llu needs more memory than there is", slots);
    return refuse_usage("ipcap defrag", "--slots %llu needs --memory %lluM or more", slots, least);
}

int run_defrag(int count, char **arguments)
{
    struct request request = {.memory = DEFAULT_MEMORY};
    int status = read_options(count, arguments, usage, options, sizeof options / sizeof *options, &request);
    if (status >= 0) return status;
    if (count - optind > 1) return refuse_usage("ipcap defrag", "defrag reads a single file");
    if (request.report && is_standard_stream(request.report) && is_standard_stream(request.output))
        return refuse_usage("ipcap defrag", "the capture and the report can't both be written to standard output: use -w");
    if (is_standard_stream(request.output) && isatty(STDOUT_FILENO))
        return refuse_usage("ipcap defrag", "refusing to write a capture to a terminal: use -w or a pipe");
    status = choose_slots(&request);
    if (status >= 0) return status;
    return defragment_file(&request, arguments[optind]) ? STATUS_DONE : STATUS_FAILED;
}
