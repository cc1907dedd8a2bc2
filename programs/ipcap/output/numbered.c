#include "output/numbered.h"

#include <stdio.h>
#include <stdlib.h>
#include <string.h>

#include "capture/blocks.h"

/* The types of blocks. */
enum { OBSOLETE_PACKET = 2, SIMPLE_PACKET = 3 };

/* Where a block has its interface and its time, and its length without a packet and options. */
enum { INTERFACE_AT = 8, TIME_AT = 12, LEAST_LEN = 32 };

/* The option of a comment, the length of each option's head, and that of the end of the options and of the end of a block. */
enum { COMMENT = 1, OPTION_HEAD = 4, OPTIONS_END = 4, TRAILER_LEN = 4 };

/* How long a comment is at most, a multiple of 4: the escaped name of a file, and what comes before it. */
enum { MOST_COMMENT = 32768 };

size_t write_numbered_head(uint8_t head[NUMBERED_HEAD], int link_type, uint32_t snap_len, bool is_fine)
{
    const struct wolfaren_interface interface = {.link_type = (uint16_t)file_link_type(link_type), .snap_len = snap_len,
                                                 .ticks_per_second = is_fine ? 1000000000 : 1000000};
    size_t section_len, len;
    bool is_written = wolfaren_write_section(0, head, NUMBERED_HEAD, &section_len) == WOLFAREN_WRITTEN
        && wolfaren_write_interface(0, &interface, head + section_len, NUMBERED_HEAD - section_len, &len) == WOLFAREN_WRITTEN;
    return is_written ? section_len + len : 0; /* there is room */
}

/* Makes room for a block. Returns false if memory runs out. */
static bool make_room(struct numbered *numbered, size_t len)
{
    if (len <= numbered->room) return true;
    const size_t room = len < MOST_BLOCK / 2 ? 2 * len : len;
    free(numbered->block);
    numbered->block = malloc(room);
    numbered->room = numbered->block ? room : 0;
    return numbered->block;
}

/* Writes the comment as an option, and returns its length. */
static size_t write_comment(uint8_t option[OPTION_HEAD + MOST_COMMENT], const struct numbered *numbered,
                            const struct capture *capture, bool is_little)
{
    char text[MOST_COMMENT];
    unsigned long long number = capture->number;
    int text_len = numbered->origin ? snprintf(text, sizeof text, "packet %llu of %s", number, numbered->origin)
                                    : snprintf(text, sizeof text, "packet %llu", number);
    const size_t shown = text_len < MOST_COMMENT ? (size_t)text_len : MOST_COMMENT - 1;
    size_t len;
    const uint8_t code =
        wolfaren_write_option(!is_little, COMMENT, (const uint8_t *)text, shown, option, OPTION_HEAD + MOST_COMMENT, &len);
    return code == WOLFAREN_WRITTEN ? len : 0; /* there is room */
}

/*
 * Makes the block of a packet, with the comment before its options, or before their end if it has none. Returns the comment's
 * length as an option, or 0 if memory runs out.
 */
static size_t make_block(struct numbered *numbered, const struct capture *capture, struct wolfaren_enhanced_packet packet,
                         bool is_little)
{
    static const uint8_t end[OPTIONS_END];
    if (packet.options_len == 0) packet.options = end;
    if (packet.options_len == 0) packet.options_len = sizeof end;
    const size_t options_room = OPTION_HEAD + MOST_COMMENT + packet.options_len;
    const size_t room = LEAST_LEN + (size_t)padded_len((uint32_t)packet.captured_len) + options_room;
    if (!make_room(numbered, room + options_room)) return 0;
    uint8_t *options = numbered->block + room;
    const size_t comment_len = write_comment(options, numbered, capture, is_little);
    memcpy(options + comment_len, packet.options, packet.options_len);
    packet.options = options;
    packet.options_len += comment_len;
    const uint8_t code = wolfaren_write_enhanced_packet(!is_little, &packet, numbered->block, room, &numbered->len);
    return code == WOLFAREN_WRITTEN ? comment_len : 0; /* the options were read as right ones */
}

/* Returns a packet of the first interface, with a time in its ticks and without options. */
static struct wolfaren_enhanced_packet packet_of(const struct packet *packet, uint64_t ticks)
{
    return (struct wolfaren_enhanced_packet){.captured = packet->frame, .captured_len = packet->header.caplen,
                                             .ticks = ticks, .original_len = packet->header.len};
}

/* Returns a time as a number of nanoseconds or microseconds. */
static uint64_t units_of(struct timespec time, bool is_fine)
{
    return (uint64_t)time.tv_sec * (is_fine ? 1000000000 : 1000000) + (uint64_t)(is_fine ? time.tv_nsec : time.tv_nsec / 1000);
}

bool make_numbered(struct numbered *numbered, const struct capture *capture, const struct packet *packet, bool is_fine)
{
    return make_block(numbered, capture, packet_of(packet, units_of(packet->time, is_fine)), true) > 0;
}

/* Returns the packet of an enhanced or obsolete packet block, with its options. */
static struct wolfaren_enhanced_packet packet_in(const struct packet *packet, bool is_little)
{
    const uint8_t *place = packet->block + TIME_AT;
    const uint64_t ticks = (uint64_t)block_number(place, is_little) << 32 | block_number(place + 4, is_little);
    struct wolfaren_enhanced_packet it = packet_of(packet, ticks);
    it.interface = packet->interface;
    it.options = packet->frame + padded_len(packet->header.caplen);
    it.options_len = (size_t)(packet->block + packet->block_len - TRAILER_LEN - it.options);
    return it;
}

bool copy_numbered(struct numbered *numbered, const struct capture *capture, const struct packet *packet, bool *is_numbered)
{
    const bool is_little = !packet->is_big_endian;
    const uint32_t type = block_number(packet->block, is_little);
    *is_numbered = true;
    if (type == SIMPLE_PACKET) return make_block(numbered, capture, packet_of(packet, 0), is_little) > 0;
    const size_t comment_len = make_block(numbered, capture, packet_in(packet, is_little), is_little);
    if (comment_len == 0) return false;
    *is_numbered = packet->block_len + comment_len + OPTIONS_END <= MOST_BLOCK;
    if (!*is_numbered) numbered->len = packet->block_len;
    if (!*is_numbered) memcpy(numbered->block, packet->block, packet->block_len);
    if (type != OBSOLETE_PACKET) return true;
    /* an obsolete packet block has the same fields, but for its type and its interface */
    memcpy(numbered->block, packet->block, sizeof type);
    memcpy(numbered->block + INTERFACE_AT, packet->block + INTERFACE_AT, sizeof packet->interface);
    return true;
}

void end_numbered(struct numbered *numbered)
{
    free(numbered->block);
    *numbered = (struct numbered){0};
}
