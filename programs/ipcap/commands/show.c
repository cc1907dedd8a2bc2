/* The subcommand `show`. */
#include <errno.h>
#include <getopt.h>
#include <stddef.h>
#include <stdio.h>
#include <stdlib.h>
#include <string.h>
#include <unistd.h>

#include "capture/input.h"
#include "commands/arguments.h"
#include "commands/commands.h"
#include "commands/confine.h"
#include "commands/options.h"
#include "commands/report.h"
#include "conditions/condition.h"
#include "conditions/matching.h"
#include "output/copy.h"
#include "output/drawing.h"
#include "output/record.h"
#include "output/title.h"
#include "output/writer.h"
#include "packets/fragments.h"

static const char usage[] =
    "usage: ipcap show [-c N] [--defrag] [--tunnels] [--memory SIZE] [--color=WHEN | --one-line | --json | --csv] [[COND] FILE]\n"
    "Draws each IP packet of FILE, or standard input, with its chain of extension headers.\n"
    "  COND          draw only packets that meet a condition, as `ipcap filter` reads it\n"
    "  -c N          stop after N packets\n"
    "  --defrag      show whole packets in place of their fragments\n"
    "  --memory SIZE use at most so much memory, such as 2G (default: 512M)\n"
    "  --tunnels     also show the packets in tunnels, each after the one that carries it\n"
    "  --color=WHEN  use colours `always`, `never`, or `auto`: only on a terminal (default)\n"
    "  --one-line    print only the first line of each packet\n"
    "  --json        print each packet as a line with a JSON object\n"
    "  --csv         print a line of names, and each packet as a line of values, separated by commas\n"
    "  --help        print this help\n"
    "  --version     print the version\n";

/* Whether standard output is a terminal with colours and NO_COLOR (no-color.org) is unset or empty. */
static bool is_color_terminal(void)
{
    const char *no_color = getenv("NO_COLOR"), *terminal = getenv("TERM");
    if (no_color && *no_color) return false;
    return isatty(STDOUT_FILENO) && terminal && strcmp(terminal, "dumb") != 0;
}

static bool read_color(const char *when, void *place)
{
    bool *in_color = place;
    if (strcmp(when, "always") == 0)
        *in_color = true;
    else if (strcmp(when, "never") == 0)
        *in_color = false;
    else if (strcmp(when, "auto") == 0)
        *in_color = is_color_terminal();
    else
        return false;
    return true;
}

/* The values of the options. */
struct request {
    bool in_color;
    bool is_one_line;
    bool json;
    bool csv;
    bool has_whole;   /* whole packets are shown in place of their fragments */
    bool has_tunnels; /* packets in tunnels are shown, too */
    uint64_t most;    /* how many packets are shown at most, besides those in tunnels */
    uint64_t memory;
    const char *path; /* the file to read, or null */
    struct wolfaren_filter *condition; /* null if all packets are shown */
};

/* The state of showing a capture. */
struct showing {
    const struct request *request;
    struct parts parts;
    struct path path; /* that of the packet, in tunnels */
    struct matcher matcher;
    struct writer writer;
    uint64_t shown; /* number of packets that were written, besides those in tunnels */
};

/* Writes a packet in the form that the options ask for. `frame` is the packet in no tunnel. */
static void put_packet(struct showing *showing, const struct capture *capture, const struct packet *packet,
                       const struct packet *frame)
{
    const struct request *request = showing->request;
    struct writer *writer = &showing->writer;
    if (request->json || request->csv) {
        struct packet in_frame = *packet;
        in_frame.header = frame->header;
        (request->json ? put_object : put_row)(writer, capture, &in_frame, &showing->parts,
                                               request->has_tunnels ? &showing->path : NULL);
        return;
    }
    if ((showing->shown > 0 || showing->path.tunnels > 0) && !request->is_one_line) put_byte(writer, '\n');
    put_title(writer, capture, packet, &showing->parts, &showing->path);
    if (packet->is_ip && !request->is_one_line) put_drawing(writer, &showing->parts, request->in_color);
}

/* Writes a packet and those in its tunnels, if these are asked for. */
static void put_packets(struct showing *showing, const struct capture *capture, const struct packet *frame)
{
    struct packet packet = *frame;
    struct inner inner;
    begin_path(&showing->path);
    for (;;) {
        if (packet.is_ip) parse_captured(&showing->parts, &packet);
        put_packet(showing, capture, &packet, frame);
        if (!showing->request->has_tunnels || !packet.is_ip || showing->path.tunnels == PATH_TUNNELS) return;
        if (!find_inner(&showing->parts, &inner)) return;
        extend_path(&showing->path, &showing->parts, inner.tunnel);
        enter_tunnel(&packet, &inner);
    }
}

/*
 * Shows a packet, if it meets the condition. A live capture is shown as it arrives. Returns false if it can't be shown, and
 * reports why.
 */
static bool show_packet(struct showing *showing, const struct capture *capture, const struct packet *packet)
{
    if (!decide(&showing->matcher, packet)) return true;
    errno = 0;
    put_packets(showing, capture, packet);
    showing->shown++;
    if (capture->is_live) end_text(&showing->writer);
    return capture->is_live || ferror(stdout) ? finish_output() : true;
}

/* Writes what is left of the text. */
static bool finish_text(struct writer *writer)
{
    errno = 0;
    end_text(writer);
    return finish_output();
}

/* Shows the packets of an open capture. */
static bool show_packets(const struct request *request, struct capture *capture)
{
    struct packet packet;
    struct showing showing = {
        .request = request,
        .matcher = {.condition = request->condition, .has_tunnels = request->condition && request->has_tunnels},
    };
    bool is_shown = true;
    if (request->csv) put_names(&showing.writer, request->has_tunnels);
    while (is_shown && showing.shown < request->most && read_packet(capture, &packet))
        is_shown = show_packet(&showing, capture, &packet);
    bool is_written = ferror(stdout) || finish_text(&showing.writer);
    return is_shown && is_written;
}

/* Shows the packets of an open capture, with whole packets in place of their fragments. */
static bool show_whole_packets(const struct request *request, struct capture *capture)
{
    struct defragmenter *defragmenter = begin_defragmenter(account_of(capture), slots_within(request->memory),
                                                          request->has_tunnels, false);
    if (!defragmenter) {
        complain_of_memory();
        return false;
    }
    pass_whole(defragmenter, capture);
    bool is_shown = show_packets(request, capture);
    stop_defragmenter(defragmenter);
    report_fragments(defragmenter, capture->name);
    is_shown &= has_had_memory(defragmenter);
    end_defragmenter(defragmenter);
    return is_shown;
}

static bool show_capture(const struct request *request)
{
    struct input input;
    set_budget(request->memory, request->has_whole ? memory_of_slots(slots_within(request->memory), false) : 0);
    if (is_any_overwritten(&request->path, 1)) return false;
    confine(FILES_READ);
    if (!open_input(&input, request->path, false)) return false;
    confine(FILES_NONE);
    bool is_shown = (request->has_whole ? show_whole_packets : show_packets)(request, &input.capture);
    bool is_read = close_input(&input);
    return is_shown && is_read;
}

static const struct option_row options[] = {
    {"c", read_count_argument, offsetof(struct request, most), "a number above 0"},
    {"color", read_color, offsetof(struct request, in_color), "always, never or auto"},
    {"one-line", set_flag, offsetof(struct request, is_one_line), NULL},
    {"json", set_flag, offsetof(struct request, json), NULL},
    {"csv", set_flag, offsetof(struct request, csv), NULL},
    {"defrag", set_flag, offsetof(struct request, has_whole), NULL},
    {"memory", read_memory_argument, offsetof(struct request, memory), MEMORY_WORDS},
    {"tunnels", set_flag, offsetof(struct request, has_tunnels), NULL},
};

/* Whether a path is that of a file, or stands for standard input. */
static bool is_file(const char *path)
{
    return is_standard_stream(path) || access(path, F_OK) == 0;
}

/* Reads the operands: the file, which is the last one, and before it the condition. Returns -1, or the exit status on an error. */
static int read_operands(struct request *request, struct wolfaren_filter *condition, int count, char *const *operands)
{
    int taken;
    if (count == 0) return -1;
    request->path = operands[count - 1];
    if (!is_file(request->path) && is_condition(count, operands))
        return refuse_usage("ipcap show", "after a condition, show needs a file, or `-` for standard input");
    if (count == 1) return -1;
    if (is_file(operands[0]) && !is_condition(count - 1, operands)) return refuse_usage("ipcap show", "show reads a single file");
    request->condition = condition;
    return read_condition(condition, count - 1, operands, true, &taken);
}

int run_show(int count, char **arguments)
{
    struct wolfaren_filter condition;
    struct request request = {.in_color = is_color_terminal(), .most = UINT64_MAX, .memory = DEFAULT_MEMORY};
    int status = read_options(count, arguments, usage, options, sizeof options / sizeof *options, &request);
    if (status >= 0) return status;
    if (request.json + request.csv + request.is_one_line > 1)
        return refuse_usage("ipcap show", "--one-line, --json and --csv exclude each other");
    status = read_operands(&request, &condition, count - optind, arguments + optind);
    if (status >= 0) return status;
    return show_capture(&request) ? STATUS_DONE : STATUS_FAILED;
}
