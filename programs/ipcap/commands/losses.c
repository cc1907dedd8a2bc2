#include "commands/losses.h"

#include <errno.h>
#include <stdlib.h>
#include <string.h>

#include "capture/source.h"
#include "commands/report.h"
#include "output/copy.h"
#include "packets/address.h"

static const char *name_of(const char *path)
{
    return is_standard_stream(path) ? "standard output" : path;
}

/* Refuses a report that would be in the same file as something else. Returns false. */
static bool refuse(const struct loss_report *report, const char *other)
{
    complain("%s: %s and report are the same file", report->name, other);
    return false;
}

/* Whether the paths of the report and the output are of one file, which may not exist yet. */
static bool is_output(const char *path, const char *output)
{
    return is_same_output(path, output) || (!is_standard_stream(output) && strcmp(path, output) == 0);
}

bool open_report(struct loss_report *report, const char *path, const char *input, const char *output)
{
    report->name = name_of(path);
    if (is_input(path, input)) return refuse(report, "input");
    if (is_output(path, output)) return refuse(report, "output");
    report->file = is_standard_stream(path) ? stdout : fopen(path, "w");
    if (!report->file) {
        complain("%s: %s", report->name, strerror(errno));
        return false;
    }
    return is_output(path, output) ? refuse(report, "output") : true;
}

void report_at_once(struct loss_report *report)
{
    if (report->file) setvbuf(report->file, NULL, _IOLBF, 0);
}

/* Stores the key of a fragment. */
static void store_key(struct loss *loss, const struct parts *parts)
{
    enum { PROTOCOL_AT = 9 };
    size_t at = parts->packet.version == 4 ? 12 : 8, len = parts->packet.version == 4 ? 8 : 32;
    struct wolfaren_header header;
    loss->version = (uint8_t)parts->packet.version;
    loss->protocol = parts->packet.version == 4 ? parts->bytes[PROTOCOL_AT] : 0;
    if (find_fragment_header(parts, &header)) loss->protocol = header.next_header;
    loss->identification = parts->packet.identification;
    if (parts->packet.version != 0) memcpy(loss->addresses, parts->bytes + at, len);
}

/* Makes room for one more number. Returns false if memory runs out, or if there are as many as can be. */
static bool make_room(struct loss *loss)
{
    size_t room = loss->room > 0 ? 2 * loss->room : 4;
    if (loss->kept < loss->room) return true;
    if (room > MOST_NUMBERS) return false;
    uint64_t *numbers = realloc(loss->numbers, room * sizeof *numbers);
    if (!numbers) return false;
    loss->numbers = numbers;
    loss->room = room;
    return true;
}

void add_to_loss(struct loss_report *report, struct loss *loss, const struct capture *capture, const struct packet *packet)
{
    if (!report->file) return;
    size_t len = packet->header.caplen - packet->ip_offset;
    if (loss->count == 0) {
        parse_packet(&report->parts, packet->frame + packet->ip_offset, len);
        store_key(loss, &report->parts);
    }
    loss->count++;
    if (loss->count == loss->kept + 1 && make_room(loss)) loss->numbers[loss->kept++] = capture->number;
}

/* Writes the numbers of the fragments. */
static void put_numbers(struct writer *writer, const struct loss *loss)
{
    put_text(writer, loss->count == 1 ? "packet " : "packets ");
    for (size_t i = 0; i < loss->kept; i++) {
        if (i > 0) put_text(writer, ", ");
        put_number(writer, loss->numbers[i]);
    }
    if (loss->count == loss->kept) return;
    put_text(writer, loss->kept > 0 ? " and " : "");
    put_number(writer, loss->count - loss->kept);
    put_text(writer, " others");
}

/* Writes the key of the packet. */
static void put_key(struct writer *writer, const struct loss *loss)
{
    enum { ID_DIGITS = 8 };
    size_t len = loss->version == 4 ? 4 : 16;
    put_address_bytes(writer, loss->version, loss->addresses);
    put_text(writer, " > ");
    put_address_bytes(writer, loss->version, loss->addresses + len);
    put_text(writer, ", protocol ");
    put_number(writer, loss->protocol);
    put_text(writer, loss->version == 4 ? ", id " : ", id 0x");
    if (loss->version == 4)
        put_number(writer, loss->identification);
    else
        put_hexadecimal(writer, loss->identification, ID_DIGITS);
}

void write_loss(struct loss_report *report, struct loss *loss, const char *reason)
{
    struct writer *writer = &report->writer;
    if (!report->file || loss->count == 0) return;
    writer->len = 0;
    put_numbers(writer, loss);
    put_text(writer, ": ");
    if (loss->version != 0) put_key(writer, loss);
    put_text(writer, loss->version != 0 ? ": " : "");
    put_text(writer, reason);
    put_byte(writer, '\n');
    errno = 0;
    if (fwrite(writer->bytes, 1, writer->len, report->file) != writer->len && report->error == 0) report->error = errno;
    forget_loss(loss);
}

void forget_loss(struct loss *loss)
{
    free(loss->numbers);
    *loss = (struct loss){0};
}

bool finish_report(struct loss_report *report)
{
    if (!report->file) return true;
    errno = 0;
    if (fflush(report->file) == 0 && !ferror(report->file)) return true;
    int error = report->error ? report->error : errno;
    complain("%s: %s", report->name, error ? strerror(error) : "write failed");
    return false;
}

void end_report(struct loss_report *report)
{
    if (report->file && report->file != stdout) fclose(report->file);
}
