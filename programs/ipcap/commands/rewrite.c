/* The subcommand `rewrite`. */
#include <getopt.h>
#include <stddef.h>
#include <unistd.h>

#include "capture/input.h"
#include "commands/arguments.h"
#include "commands/commands.h"
#include "commands/confine.h"
#include "commands/options.h"
#include "commands/report.h"
#include "output/copy.h"
#include "packets/changes.h"

static const char usage[] =
    "usage: ipcap rewrite [--without HEADER] [--clear] [--in-order] [--break-authentication] [--tunnels] [--memory SIZE] [-w OUTPUT] [FILE]\n"
    "Writes the packets of FILE, or standard input, with changed extension headers. The first three options say how.\n"
    "  --without HEADER        leave out this header, such as `hop-by-hop` or 0; can be given several times\n"
    "  --clear                 set the reserved bits of fragment and authentication headers to zero\n"
    "  --in-order              put headers in the order that RFC 8200, section 4.1, recommends\n"
    "  --break-authentication  also change packets that keep an authentication header: its integrity check then fails\n"
    "  --tunnels               also change the packets in tunnels\n"
    "  --memory SIZE           use at most so much memory, such as 2G (default: 512M)\n"
    "  -w OUTPUT               write to this file instead of standard output\n"
    "  --help                  print this help\n"
    "  --version               print the version\n";

/* The values of the options. */
struct request {
    const char *output;
    uint64_t without;
    uint64_t memory;
    bool clears;
    bool orders;
    bool breaks_authentication;
    bool has_tunnels;
};

static const struct option_row options[] = {
    {"w", read_text_argument, offsetof(struct request, output), "a path"},
    {"without", read_header_argument, offsetof(struct request, without), "an extension header, such as hop-by-hop or 0"},
    {"clear", set_flag, offsetof(struct request, clears), NULL},
    {"in-order", set_flag, offsetof(struct request, orders), NULL},
    {"memory", read_memory_argument, offsetof(struct request, memory), MEMORY_WORDS},
    {"break-authentication", set_flag, offsetof(struct request, breaks_authentication), NULL},
    {"tunnels", set_flag, offsetof(struct request, has_tunnels), NULL},
};

/* Writes all packets. */
static bool write_packets(struct output *output, const struct request *request, struct rewriter *rewriter,
                          struct capture *capture)
{
    struct packet packet;
    bool is_done = true;
    while (is_done && !has_output_failed(output) && read_packet(capture, &packet)) {
        is_done = rewrite_packet(rewriter, &packet);
        if (is_done) write_packet(output, capture, &packet);
    }
    report_rewrites(rewriter, capture->name);
    return finish_copy(output, request->output) && is_done;
}

/* Returns the changes that the options ask for. */
static struct wolfaren_request request_of(const struct request *request)
{
    return (struct wolfaren_request){
        .without_hop_by_hop = request->without >> WOLFAREN_HOP_BY_HOP & 1,
        .without_routing = request->without >> WOLFAREN_ROUTING & 1,
        .without_fragment = request->without >> WOLFAREN_FRAGMENT & 1,
        .without_authentication = request->without >> WOLFAREN_AUTHENTICATION & 1,
        .without_destination_options = request->without >> WOLFAREN_DESTINATION_OPTIONS & 1,
        .clears = request->clears,
        .orders = request->orders,
    };
}

static bool rewrite_file(const struct request *request, const char *path)
{
    struct input input;
    struct output output = {0};
    struct rewriter rewriter = {
        .request = request_of(request),
        .breaks_authentication = request->breaks_authentication,
        .has_tunnels = request->has_tunnels,
    };
    set_budget(request->memory, 0);
    if (!open_input(&input, path, true)) return false;
    rewriter.account = account_of(&input.capture);
    if (!is_standard_stream(request->output)) allow_progress(&input);
    bool is_open = open_copy(&output, request->output, &input.capture, path, begin_output);
    if (is_open) confine(FILES_NONE);
    bool is_done = is_open && write_packets(&output, request, &rewriter, &input.capture);
    end_output(&output);
    end_rewriter(&rewriter);
    return close_input(&input) && is_done;
}

int run_rewrite(int count, char **arguments)
{
    struct request request = {.memory = DEFAULT_MEMORY};
    int status = read_options(count, arguments, usage, options, sizeof options / sizeof *options, &request);
    if (status >= 0) return status;
    if (request.without == 0 && !request.clears && !request.orders)
        return refuse_usage("ipcap rewrite", "--without, --clear or --in-order is missing: there is nothing to rewrite");
    if (count - optind > 1) return refuse_usage("ipcap rewrite", "rewrite reads a single file");
    if (is_standard_stream(request.output) && isatty(STDOUT_FILENO))
        return refuse_usage("ipcap rewrite", "refusing to write a capture to a terminal: use -w or a pipe");
    return rewrite_file(&request, arguments[optind]) ? STATUS_DONE : STATUS_FAILED;
}
