/* The calls of the library libwolfaren-pcap that read packets, and that filter captures. */
#include <errno.h>
#include <pcap/pcap.h>
#include <stdbool.h>
#include <stdio.h>
#include <stdlib.h>
#include <string.h>
#include <unistd.h>

#include "capture/capture.h"
#include "output/output.h"
#include "wolfaren-pcap.h"
#include "wolfaren.h"

_Static_assert((int)MOST_BLOCK <= WOLFAREN_PCAP_PACKET_ROOM, "every packet fits");

/* The symbols that the library exports. */
#define EXPORTED __attribute__((visibility("default")))

/* How many bytes are written to a file at once. */
enum { OUTPUT_BUFFER = 1 << 16 };

struct wolfaren_pcap_reader {
    struct capture capture;
    struct packet packet; /* the packet that was read last */
    bool is_kept;         /* it didn't fit into the buffer, so the next call returns it */
    bool has_ended;       /* the end was reached, or reading failed */
};

/* Writes an error, or the empty text, and sets `errno`. */
static void write_error(char error[WOLFAREN_PCAP_ERROR_ROOM], const char *text, int system_error)
{
    snprintf(error, WOLFAREN_PCAP_ERROR_ROOM, "%s", text);
    errno = system_error;
}

EXPORTED struct wolfaren_pcap_reader *wolfaren_pcap_open(const char *path, char error[WOLFAREN_PCAP_ERROR_ROOM])
{
    struct wolfaren_pcap_reader *reader = calloc(1, sizeof *reader);
    if (!reader) {
        write_error(error, "out of memory", 0);
        return NULL;
    }
    bool is_open = open_capture(&reader->capture, path, NULL, false);
    write_error(error, reader->capture.error, reader->capture.system_error);
    if (is_open) return reader;
    int system_error = errno;
    free(reader);
    errno = system_error;
    return NULL;
}

EXPORTED const char *wolfaren_pcap_link_layer_name(int32_t link_type)
{
    const char *name = pcap_datalink_val_to_name(link_type);
    return name ? name : "";
}

/* Reads the next IP packet, or takes the one that was kept. At the end returns false. */
static bool next_ip(struct wolfaren_pcap_reader *reader)
{
    bool is_there = reader->is_kept;
    reader->is_kept = false;
    while (!is_there && !reader->has_ended) {
        reader->has_ended = !read_packet(&reader->capture, &reader->packet);
        is_there = !reader->has_ended && reader->packet.is_ip;
    }
    if (reader->has_ended) report_left_out(&reader->capture);
    return is_there;
}

/* Returns the fields of the packet that was read last, with its place in the buffer. */
static struct wolfaren_pcap_packet fields_of(const struct wolfaren_pcap_reader *reader, size_t offset)
{
    const struct packet *packet = &reader->packet;
    struct timespec time = packet->time;
    return (struct wolfaren_pcap_packet){
        .number = reader->capture.number,
        .seconds = packet->has_time ? time.tv_sec : 0,
        .nanoseconds = packet->has_time ? time.tv_nsec : 0,
        .has_time = packet->has_time,
        .link_type = packet->link_type,
        .captured_len = packet->header.caplen,
        .original_len = packet->header.len,
        .ip_offset = packet->ip_offset,
        .offset = offset,
        .len = packet->header.caplen - packet->ip_offset,
    };
}

EXPORTED size_t wolfaren_pcap_read(struct wolfaren_pcap_reader *reader, struct wolfaren_pcap_packet *packets,
                                   size_t room, uint8_t *bytes, size_t bytes_room,
                                   char error[WOLFAREN_PCAP_ERROR_ROOM])
{
    size_t count = 0, used = 0;
    size_t most = reader->capture.is_live ? 1 : room;
    while (count < most && next_ip(reader)) {
        struct wolfaren_pcap_packet fields = fields_of(reader, used);
        reader->is_kept = fields.len > bytes_room - used;
        if (reader->is_kept) break;
        memcpy(bytes + used, reader->packet.frame + fields.ip_offset, fields.len);
        packets[count++] = fields;
        used += fields.len;
    }
    bool is_too_large = count == 0 && reader->is_kept;
    if (is_too_large)
        write_error(error, "a packet is larger than the buffer", 0);
    else if (count == 0)
        write_error(error, reader->capture.error, reader->capture.system_error);
    else
        write_error(error, "", 0);
    return count;
}

EXPORTED void wolfaren_pcap_close(struct wolfaren_pcap_reader *reader)
{
    if (!reader) return;
    close_capture(&reader->capture);
    free(reader);
}

/* Returns a stream that writes to a copy of a descriptor, or null, in which case `errno` says why. */
static FILE *open_copy(int descriptor, char buffer[OUTPUT_BUFFER])
{
    int copy = dup(descriptor);
    if (copy < 0) return NULL;
    FILE *file = fdopen(copy, "wb");
    if (!file) {
        int system_error = errno;
        close(copy);
        errno = system_error;
        return NULL;
    }
    setvbuf(file, buffer, _IOFBF, OUTPUT_BUFFER);
    return file;
}

/* Writes the frames that meet the condition. If they can't be written, sets the error of the output. */
static void write_frames(const struct wolfaren_filter *condition, struct capture *capture, struct output *output)
{
    struct packet packet;
    while (!has_output_failed(output) && read_packet(capture, &packet))
        if (does_match(condition, &packet)) write_packet(output, capture, &packet);
    errno = 0;
    flush_output(output);
}

/* Returns whether all of a capture was written, or where that failed, with the error. */
static int outcome_of(struct capture *capture, const struct output *output, char error[WOLFAREN_PCAP_ERROR_ROOM])
{
    bool is_whole = is_read_whole(capture), is_left_out = is_any_left_out(capture);
    report_left_out(capture);
    if (has_output_failed(output)) {
        write_error(error, output->error, output->system_error);
        return WOLFAREN_PCAP_OUTPUT_FAILED;
    }
    write_error(error, capture->error, capture->system_error);
    if (!is_whole) return WOLFAREN_PCAP_INPUT_FAILED;
    return is_left_out ? WOLFAREN_PCAP_LEFT_OUT : WOLFAREN_PCAP_FILTERED;
}

/* A capture and the buffer of its output, which are too large for the stacks of some threads. */
struct filtering {
    struct capture capture;
    char buffer[OUTPUT_BUFFER];
};

/* Filters an open capture, and returns where that failed, with its error. */
static int filter_opened(const struct wolfaren_filter *condition, struct filtering *filtering, int descriptor,
                         struct wolfaren_pcap_counts *counts, char error[WOLFAREN_PCAP_ERROR_ROOM])
{
    struct output output = {0};
    errno = 0;
    FILE *file = open_copy(descriptor, filtering->buffer);
    if (!file) {
        int system_error = errno;
        write_error(error, system_error ? strerror(system_error) : "out of memory", system_error);
        return WOLFAREN_PCAP_OUTPUT_FAILED;
    }
    struct capture *capture = &filtering->capture;
    if (begin_output(&output, capture, file)) write_frames(condition, capture, &output);
    end_output(&output);
    *counts = (struct wolfaren_pcap_counts){capture->number, output.written};
    return outcome_of(capture, &output, error);
}

/* Filters a capture, and returns where that failed, with its error. */
static int filter_input(const struct wolfaren_filter *condition, struct filtering *filtering, const char *input, int output,
                        struct wolfaren_pcap_counts *counts, char error[WOLFAREN_PCAP_ERROR_ROOM])
{
    struct capture *capture = &filtering->capture;
    if (!open_capture(capture, input, NULL, true)) {
        write_error(error, capture->error, capture->system_error);
        return WOLFAREN_PCAP_INPUT_FAILED;
    }
    int outcome = filter_opened(condition, filtering, output, counts, error);
    int system_error = errno;
    close_capture(capture);
    errno = system_error;
    return outcome;
}

EXPORTED int wolfaren_pcap_filter(const char *condition, size_t condition_len, const char *input, int output,
                                  struct wolfaren_pcap_counts *counts, char error[WOLFAREN_PCAP_ERROR_ROOM])
{
    struct wolfaren_filter filter;
    struct wolfaren_filter_error place;
    *counts = (struct wolfaren_pcap_counts){0};
    if (!wolfaren_cpu_is_supported()) {
        write_error(error, UNSUPPORTED_CPU, 0);
        return WOLFAREN_PCAP_INPUT_FAILED;
    }
    if (!wolfaren_parse_filter(condition, condition_len, &filter, &place)) {
        write_error(error, "the condition is not a filter", 0);
        return WOLFAREN_PCAP_CONDITION_FAILED;
    }
    struct filtering *filtering = malloc(sizeof *filtering);
    if (!filtering) {
        write_error(error, "out of memory", 0);
        return WOLFAREN_PCAP_INPUT_FAILED;
    }
    int outcome = filter_input(&filter, filtering, input, output, counts, error);
    int system_error = errno;
    free(filtering);
    errno = system_error;
    return outcome;
}
