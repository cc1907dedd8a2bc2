#include "capture/capture.h"

#include <limits.h>
#include <stdarg.h>
#include <stdio.h>
#include <stdlib.h>
#include <string.h>

#include "capture/swap.h"

/* How long the header of a classic file is, and the number that begins a file. */
enum { FILE_HEADER = 24, MAGIC_LEN = 4 };

/* Sets the text of the error, formatted as by printf, and returns false. */
__attribute__((format(printf, 2, 3))) static bool fail(struct capture *capture, const char *format, ...)
{
    va_list arguments;
    va_start(arguments, format);
    vsnprintf(capture->error, sizeof capture->error, format, arguments);
    va_end(arguments);
    return false;
}

/* Sets the error to that of the source, and returns false. */
static bool fail_as_source(struct capture *capture)
{
    capture->system_error = capture->source.system_error;
    return fail(capture, "%s", capture->source.error);
}

/* Writes that a link layer isn't supported to a text. Returns the length that it needs. */
static size_t write_refusal(int link_type, char *text, size_t room)
{
    const char *name = pcap_datalink_val_to_name(link_type);
    const char *words = pcap_datalink_val_to_description(link_type);
    int len = name && words ? snprintf(text, room, "link layer %s (%s) isn't supported", name, words)
                            : snprintf(text, room, "link layer %d isn't supported", link_type);
    return (size_t)len;
}

/* Sets the form of a classic file whose header was read. Its field of the link type is at `field`. */
static void set_form(struct capture *capture, const uint8_t *field)
{
    enum { EXTENSION = 0xfc };
    const struct wolfaren_capture *file = &capture->reader;
    capture->is_classic = true;
    capture->link_type = capture->form.link_type = link_type_of(file->link_type);
    capture->form.extension = (uint32_t)(field[file->byte_order ? 0 : 3] & EXTENSION) << 24;
    capture->form.snap_len = file->snap_len == 0 || file->snap_len > INT_MAX ? MOST_CAPTURED : file->snap_len;
    capture->form.is_fine = file->form == WOLFAREN_NANOSECONDS;
}

/* Begins to read a classic file, with this header. */
static bool open_classic(struct capture *capture, const uint8_t header[FILE_HEADER])
{
    enum { LINK_TYPE_AT = 20 };
    set_form(capture, header + LINK_TYPE_AT);
    skip_ahead(&capture->source, FILE_HEADER);
    if (is_supported(capture->link_type)) return true;
    write_refusal(capture->link_type, capture->error, sizeof capture->error);
    return false;
}

/* The last interface that the section describes. */
static const struct wolfaren_interface *last_interface(const struct capture *capture)
{
    return &capture->reader.interfaces[capture->reader.interface_count - 1];
}

/* Adds the last interface to the names of those left out, unless its link layer is among them. */
static void name_left_out(struct capture *capture, int link_type)
{
    struct capture_blocks *blocks = &capture->blocks;
    size_t number = capture->reader.interface_count - 1, len = strlen(blocks->left_out_names);
    char *text = blocks->left_out_names + len;
    size_t room = sizeof blocks->left_out_names - len;
    for (size_t i = 0; i < blocks->left_out_count; i++)
        if (blocks->left_out[i] == link_type) return;
    if (blocks->left_out_count == MOST_LEFT_OUT) return;
    blocks->left_out[blocks->left_out_count++] = link_type;
    size_t before = (size_t)snprintf(text, room, "%sinterface %zu: ", len > 0 ? "; " : "", number);
    if (before >= room || before + write_refusal(link_type, text + before, room - before) >= room) *text = '\0';
}

/* Looks at the interface that was described last. */
static void take_interface(struct capture *capture)
{
    const int link_type = link_type_of(last_interface(capture)->link_type);
    const bool is_one = is_supported(link_type);
    if (!is_one) name_left_out(capture, link_type);
    else if (!capture->blocks.has_interface) capture->link_type = link_type;
    if (is_one) capture->blocks.has_interface = true;
}

/* Makes room for so many more bytes of the head. Returns false if memory or the budget runs out. */
static bool make_head_room(struct capture *capture, size_t more)
{
    enum { STEP = 1 << 20 }; /* the first one is part of what every file has */
    struct capture_blocks *blocks = &capture->blocks;
    const struct memory_source *memory = capture->memory;
    size_t len = blocks->head_len + more, room = (len + STEP - 1) / STEP * STEP;
    if (len <= blocks->head_room) return true;
    if (memory && !memory->ask(memory->account, room - (blocks->head ? blocks->head_room : STEP)))
        return fail(capture, "the blocks before the first packet can't be kept: " MEMORY_REFUSED);
    uint8_t *head = realloc(blocks->head, room);
    if (!head) return fail(capture, "out of memory");
    blocks->head = head;
    blocks->head_room = room;
    return true;
}

/* Counts a block as one of the head, and adds it if that is kept. Returns false if memory or the budget runs out. */
static bool add_to_head(struct capture *capture, const uint8_t *block, size_t len)
{
    struct capture_blocks *blocks = &capture->blocks;
    if (capture->keeps_head && !make_head_room(capture, len)) return false;
    if (capture->keeps_head) memcpy(blocks->head + blocks->head_len, block, len);
    blocks->head_len += len;
    return true;
}

/*
 * Takes a block that is no packet, which is the first thing that is ahead. The length of a section is replaced by -1, which stands
 * for an unknown one, since copies may have fewer blocks. Returns false if nothing more may be read.
 */
static bool take_other_block(struct capture *capture, const struct wolfaren_record *record)
{
    enum { SECTION_HEADER = 0x0a0d0d0a, SECTION_LENGTH_AT = 16, SECTION_LENGTH_LEN = 8, INTERFACE = 1, CUSTOM_NOT_COPIED = 0x40000bad };
    uint8_t *block = bytes_ahead(&capture->source);
    skip_ahead(&capture->source, record->record_len);
    if (record->block_type == SECTION_HEADER) memset(block + SECTION_LENGTH_AT, 0xff, SECTION_LENGTH_LEN);
    if (record->block_type == INTERFACE) take_interface(capture);
    if (record->block_type == CUSTOM_NOT_COPIED) return true;
    if (!capture->blocks.has_begun) return add_to_head(capture, block, record->record_len);
    return !capture->copy || capture->copy(capture, block, record);
}

/* Makes room for more interfaces of a section. Returns false if it has the most, or if memory runs out. */
static bool make_interface_room(struct wolfaren_capture *reader)
{
    size_t room = reader->room ? 2 * reader->room : 4;
    if (room > MOST_INTERFACES) return false;
    struct wolfaren_interface *interfaces = realloc(reader->interfaces, room * sizeof *interfaces);
    if (!interfaces) return false;
    reader->interfaces = interfaces;
    reader->room = room;
    return true;
}

/* Sets the error that the next packet can't be read, for a reason that the source may know better, and returns false. */
static bool fail_on_packet(struct capture *capture, const char *reason)
{
    const char *words = *capture->source.error ? capture->source.error : reason;
    capture->system_error = capture->source.system_error;
    if (!capture->is_classic && !capture->blocks.has_begun) return fail(capture, "%s", words);
    return fail(capture, "can't read packet %llu: %s", (unsigned long long)capture->number + 1, words);
}

/* Sets the error that the next record or block can't be read, and returns false. */
static bool fail_on_record(struct capture *capture, const struct wolfaren_record *record)
{
    char text[WOLFAREN_TEXT_ROOM];
    wolfaren_capture_error_text(&record->error, text, sizeof text);
    if (record->kind == WOLFAREN_NEXT_NEEDS)
        snprintf(text, sizeof text, "%s at offset %llu is truncated: %zu bytes needed, %zu there", capture->is_classic ? "record" : "block",
                 (unsigned long long)capture->reader.offset, record->needed, count_ahead(&capture->source));
    return fail_on_packet(capture, text);
}

/* Stores what comes next. */
static void look_ahead(struct capture *capture, struct wolfaren_record *record)
{
    wolfaren_next_record(&capture->reader, bytes_ahead(&capture->source), count_ahead(&capture->source), record);
}

/* Reads more bytes for the next record. Returns false at the end of the file, and on failure, which sets the error. */
static bool read_more(struct capture *capture, const struct wolfaren_record *record)
{
    size_t count = count_ahead(&capture->source);
    if (!read_ahead(&capture->source, count + 1 > record->needed ? count + 1 : record->needed)) return fail_on_packet(capture, "read error");
    return count_ahead(&capture->source) > count || (record->kind == WOLFAREN_NEXT_NEEDS && fail_on_record(capture, record));
}

/*
 * Reads the next record or block, which is then the first thing that is ahead. Returns false at the end of the file, and on failure,
 * which sets the error.
 */
static bool read_record(struct capture *capture, struct wolfaren_record *record)
{
    look_ahead(capture, record);
    while (record->kind > WOLFAREN_NEXT_BLOCK) {
        bool is_full = record->kind == WOLFAREN_NEXT_ERROR && record->error.kind == WOLFAREN_TOO_MANY_INTERFACES;
        if (is_full && !make_interface_room(&capture->reader))
            return capture->reader.room < MOST_INTERFACES ? fail(capture, "out of memory") : fail_on_record(capture, record);
        if (record->kind == WOLFAREN_NEXT_ERROR && !is_full) return fail_on_record(capture, record);
        if (!is_full && !read_more(capture, record)) return false;
        look_ahead(capture, record);
    }
    return true;
}

/* Reads blocks up to the first packet, so that the interfaces are known. */
static bool open_blocks(struct capture *capture)
{
    enum { MOST_HEAD = 1 << 24 };
    struct capture_blocks *blocks = &capture->blocks;
    capture->reader.limit = MOST_BLOCK;
    while (!blocks->is_ahead && blocks->head_len < MOST_HEAD && read_record(capture, &blocks->first)) {
        blocks->is_ahead = blocks->first.kind == WOLFAREN_NEXT_FRAME;
        if (!blocks->is_ahead && !take_other_block(capture, &blocks->first)) return false;
    }
    blocks->has_begun = true;
    if (*capture->error) return false;
    if (!blocks->has_interface && blocks->left_out_count > 0) return fail(capture, "%s", blocks->left_out_names);
    if (blocks->has_interface || blocks->head_len < MOST_HEAD) return true;
    return fail(capture, "no interface is described in the first %d bytes", MOST_HEAD);
}

static void close_file(struct capture *capture)
{
    free(capture->blocks.head);
    free(capture->reader.interfaces);
    close_source(&capture->source);
}

/* Reads the header of a file, which says of what form it is. */
static bool open_opened(struct capture *capture)
{
    struct source *source = &capture->source;
    struct wolfaren_capture_error error;
    uint8_t header[FILE_HEADER] = {0};
    char text[WOLFAREN_TEXT_ROOM];
    if (!read_ahead(source, FILE_HEADER)) return fail_as_source(capture);
    size_t len = count_ahead(source);
    if (len == 0) return fail(capture, "the file is empty");
    memcpy(header, bytes_ahead(source), len < FILE_HEADER ? len : FILE_HEADER);
    capture->reader = (struct wolfaren_capture){.limit = MOST_CAPTURED};
    bool is_begun = wolfaren_begin_capture(&capture->reader, header, sizeof header, &error);
    if (is_begun && capture->reader.form == WOLFAREN_PCAPNG) return open_blocks(capture);
    bool is_other = len >= MAGIC_LEN && !is_begun && error.kind == WOLFAREN_UNKNOWN_MAGIC;
    if (len < FILE_HEADER && !is_other) return fail(capture, "the file header is truncated");
    if (is_begun) return open_classic(capture, header);
    wolfaren_capture_error_text(&error, text, sizeof text);
    return fail(capture, "%s", text);
}

/* Opens the capture that is in the source, if that was opened. */
static bool open_bytes(struct capture *capture, bool is_open)
{
    if (!is_open) return fail_as_source(capture);
    capture->is_live = is_live(&capture->source);
    if (open_opened(capture)) return true;
    close_file(capture);
    return false;
}

bool open_capture(struct capture *capture, const char *path, const struct memory_source *memory, bool keeps_head)
{
    *capture = (struct capture){.memory = memory, .keeps_head = keeps_head};
    capture->name = is_standard_stream(path) ? "standard input" : path;
    if (!wolfaren_cpu_is_supported()) return fail(capture, UNSUPPORTED_CPU);
    return open_bytes(capture, open_source(&capture->source, path, memory));
}

bool open_capture_of(struct capture *capture, int descriptor, const char *name, const struct memory_source *memory)
{
    *capture = (struct capture){0};
    capture->name = name;
    return open_bytes(capture, open_descriptor(&capture->source, descriptor, memory));
}

bool has_nanoseconds(const struct capture *capture)
{
    return !capture->is_classic || capture->form.is_fine;
}

/* A second in nanoseconds. */
enum { SECOND = 1000000000 };

/* Takes the packet of a record, which is the first thing that is ahead. */
static void take_frame(struct capture *capture, const struct wolfaren_record *record, struct packet *packet)
{
    packet->header = (struct pcap_pkthdr){.caplen = (bpf_u_int32)record->len, .len = record->original_len};
    packet->time = (struct timespec){(time_t)(record->time / SECOND), (long)(record->time % SECOND)};
    packet->has_time = record->has_time;
    packet->frame = bytes_ahead(&capture->source) + record->offset;
    packet->interface = record->interface;
    packet->link_type = link_type_of(record->link_type);
    packet->block = NULL;
    skip_ahead(&capture->source, record->record_len);
}

/* Whether the numbers of a classic file are in the other byte order than those of this machine. */
static bool is_swapped(const struct capture *capture)
{
    return capture->reader.byte_order != (__BYTE_ORDER__ == __ORDER_BIG_ENDIAN__);
}

/* Reads the next packet of a classic file. */
static bool read_from_classic(struct capture *capture, struct packet *packet)
{
    struct wolfaren_record record;
    if (!read_record(capture, &record)) return false;
    if (is_swapped(capture)) swap_header(capture->link_type, bytes_ahead(&capture->source) + record.offset, record.len);
    take_frame(capture, &record, packet);
    long fraction = has_nanoseconds(capture) ? packet->time.tv_nsec : packet->time.tv_nsec / 1000;
    packet->header.ts = (struct timeval){packet->time.tv_sec, fraction};
    return true;
}

/* Reads up to the next block with a packet, which is then the first thing that is ahead. */
static bool find_packet_block(struct capture *capture, struct wolfaren_record *record)
{
    if (capture->blocks.is_ahead) {
        *record = capture->blocks.first;
        capture->blocks.is_ahead = false;
        return true;
    }
    while (read_record(capture, record)) {
        if (record->kind == WOLFAREN_NEXT_FRAME) return true;
        if (!take_other_block(capture, record)) return false;
    }
    return false;
}

/* Reads the next packet of a pcapng file. */
static bool read_from_blocks(struct capture *capture, struct packet *packet)
{
    struct wolfaren_record record;
    if (!find_packet_block(capture, &record)) return false;
    capture->blocks.block = bytes_ahead(&capture->source);
    take_frame(capture, &record, packet);
    packet->block = capture->blocks.block;
    packet->block_len = record.record_len;
    packet->is_big_endian = capture->reader.byte_order;
    return true;
}

/* Finds the IP packet in the frame of a packet. */
static void find_in_frame(struct packet *packet)
{
    struct wolfaren_frame *found = &packet->found;
    packet->is_left_out = !wolfaren_find_ip((uint32_t)packet->link_type, packet->frame, packet->header.caplen, found);
    packet->is_ip = false;
    if (packet->is_left_out) return;
    packet->is_ip = found->end == WOLFAREN_FRAME_IP;
    packet->ip_offset = found->offset;
    packet->protocol = protocol_of(found);
    packet->vlans = vlans_of(found);
}

/* Reads the next packet, even if it is to be skipped. */
static bool read_next(struct capture *capture, struct packet *packet)
{
    if (!(capture->is_classic ? read_from_classic(capture, packet) : read_from_blocks(capture, packet))) return false;
    capture->number++;
    if (capture->follow) capture->follow(capture);
    packet->is_short = packet->header.caplen < packet->header.len;
    find_in_frame(packet);
    return true;
}

static bool is_stopped(const struct capture *capture)
{
    return capture->stop && *capture->stop;
}

/* Sets the error if reading had to stop, and returns false. */
static bool end_reading(struct capture *capture)
{
    unsigned long long number = capture->number;
    if (is_stopped(capture)) fail(capture, "interrupted after %llu %s", number, number == 1 ? "packet" : "packets");
    return false;
}

bool read_packet(struct capture *capture, struct packet *packet)
{
    do
        if (is_stopped(capture) || !read_next(capture, packet)) return end_reading(capture);
    while (capture->pass && !capture->pass(capture, packet));
    return true;
}

bool is_read_whole(const struct capture *capture)
{
    return *capture->error == '\0';
}

bool is_any_left_out(const struct capture *capture)
{
    return *capture->blocks.left_out_names != '\0';
}

void report_left_out(struct capture *capture)
{
    char *names = capture->blocks.left_out_names;
    size_t len = strlen(capture->error);
    if (*names) snprintf(capture->error + len, sizeof capture->error - len, "%s%s", len > 0 ? "; " : "", names);
    *names = '\0';
}

void close_capture(struct capture *capture)
{
    report_left_out(capture);
    close_file(capture);
}
