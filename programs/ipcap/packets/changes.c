#include "packets/changes.h"

#include <stdlib.h>
#include <string.h>

#include "capture/blocks.h"
#include "commands/report.h"
#include "conditions/matching.h"
#include "packets/levels.h"

/* Where the captured length, the length and the frame of a packet are in its block, and in a simple packet block. */
enum { CAPTURED_LEN_AT = 20, LEN_AT = 24, FRAME_AT = 28, SIMPLE_LEN_AT = 8, SIMPLE_FRAME_AT = 12, TRAILER_LEN = 4 };

/* Bytes of an IP packet. */
struct span {
    const uint8_t *bytes;
    size_t len;
};

/* What became of a packet. */
struct change {
    struct wolfaren_rewritten written;
    bool keeps_check_values;
};

/* Writes a packet with all changes, if there are any, to `room` bytes. An authentication header becomes invalid only if it has to. */
static void change_packet(const struct rewriter *rewriter, struct span packet, uint8_t *out, size_t room, struct change *change)
{
    struct wolfaren_request request = rewriter->request;
    change->keeps_check_values = true;
    if (wolfaren_rewrite(packet.bytes, packet.len, &request, out, room, &change->written)) return;
    if (change->written.refusal != WOLFAREN_REFUSED_AUTHENTICATED || !rewriter->breaks_authentication) return;
    request.may_be_invalid = 1;
    change->keeps_check_values = !wolfaren_rewrite(packet.bytes, packet.len, &request, out, room, &change->written);
}

/* Makes the block of a frame that is at its place in the new block already, from the old one: its options and all else stay. */
static void make_block(struct packet *packet, uint8_t *block, const struct packet *old)
{
    const bool is_little = !old->is_big_endian;
    const size_t frame_at = (size_t)(old->frame - old->block);
    const uint8_t *options = old->frame + padded_len(old->header.caplen), *end = old->block + old->block_len - TRAILER_LEN;
    const uint32_t len = packet->header.caplen;
    uint8_t *place = block + frame_at + len;
    memcpy(block, old->block, frame_at);
    memset(place, 0, padded_len(len) - len);
    place += padded_len(len) - len;
    memcpy(place, options, (size_t)(end - options));
    place += end - options;
    packet->block_len = (size_t)(place - block) + TRAILER_LEN;
    put_block_number(place, (uint32_t)packet->block_len, is_little);
    put_block_number(block + 4, (uint32_t)packet->block_len, is_little);
    if (frame_at == FRAME_AT) put_block_number(block + CAPTURED_LEN_AT, len, is_little);
    put_block_number(block + (frame_at == FRAME_AT ? LEN_AT : SIMPLE_LEN_AT), packet->header.len, is_little);
    packet->block = block;
}

/* Returns where the frame of a packet is in the buffer once it was changed. */
static uint8_t *frame_in_buffer(const struct rewriter *rewriter, const struct packet *packet)
{
    return rewriter->buffer + (packet->block ? packet->frame - packet->block : 0);
}

/* Replaces a packet in a frame by one that isn't longer. The bytes before it and after it stay. */
static void replace(const struct rewriter *rewriter, struct packet *packet, const struct packet *old, struct levels *levels,
                    size_t index, size_t old_len, struct span new)
{
    uint8_t *frame = frame_in_buffer(rewriter, old);
    const uint32_t removed = (uint32_t)(old_len - new.len);
    size_t len = packet->header.caplen;
    if (packet->frame != frame) memcpy(frame, packet->frame, len);
    replace_packet(levels, index, frame, &len, old_len, new.bytes, new.len);
    packet->frame = frame;
    packet->header.caplen = (uint32_t)len;
    /* a damaged capture may state fewer bytes than it has */
    packet->header.len = packet->header.len > removed ? packet->header.len - removed : 0;
}

/* Makes room for a changed packet, unless there is as much. If memory or the budget runs out, reports that and returns false. */
static bool reserve(struct rewriter *rewriter, const struct packet *packet)
{
    const size_t len = packet->block ? packet->block_len : packet->header.caplen;
    if (rewriter->room >= len) return true;
    const bool is_enough = len <= SIZE_MAX / 2 && ask_for_memory(rewriter->account, 2 * (uint64_t)(len - rewriter->room));
    free(rewriter->buffer);
    rewriter->buffer = is_enough ? malloc(2 * len) : NULL;
    rewriter->room = rewriter->buffer ? len : 0;
    if (!rewriter->buffer) complain_of_memory();
    return rewriter->buffer;
}

/* Whether the block of a packet states a captured length of its own. That of a simple packet depends on its interface. */
static bool has_captured_len(const struct packet *packet)
{
    return !packet->block || packet->frame - packet->block == FRAME_AT || !packet->is_short;
}

/*
 * Changes the packet with this index in a frame, if there is something to change. If memory or the budget runs out, reports that
 * and returns false.
 */
static bool rewrite_level(struct rewriter *rewriter, struct packet *packet, const struct packet *old, struct levels *levels,
                          size_t index)
{
    const struct span span = {packet->frame + levels->of[index].offset, levels->of[index].len};
    struct wolfaren_dissection dissection;
    struct change change;
    /* authentication headers of outer packets, after this packet was changed: nothing refuses that before a tunnel */
    const bool are_left_out = rewriter->request.without_authentication;
    change_packet(rewriter, span, NULL, 0, &change);
    uint8_t refusal = change.written.refusal;
    if (refusal == WOLFAREN_NOT_REFUSED) return true;
    if (!has_captured_len(old)) refusal = WOLFAREN_REFUSED_MISSING;
    if (refusal == WOLFAREN_REFUSED_NO_ROOM) {
        if (!reserve(rewriter, old)) return false;
        change_packet(rewriter, span, rewriter->buffer + rewriter->room, rewriter->room, &change);
        refusal = change.written.refusal;
    }
    wolfaren_dissect(span.bytes, span.len, NULL, 0, &dissection);
    const struct span new = {rewriter->buffer + rewriter->room, change.written.len};
    const size_t old_len = span.len - dissection.padding;
    if (refusal == WOLFAREN_NOT_REFUSED)
        refusal = refuse_growth(levels, index, (ptrdiff_t)new.len - (ptrdiff_t)old_len,
                                rewriter->breaks_authentication || are_left_out);
    if (refusal != WOLFAREN_NOT_REFUSED) {
        rewriter->refused[refusal < REFUSALS ? refusal : WOLFAREN_REFUSED_HEADERS]++;
        return true;
    }
    rewriter->without_checksums += !change.written.keeps_checksums;
    rewriter->without_check_values += !change.keeps_check_values || (is_covered(levels, index) && !are_left_out);
    replace(rewriter, packet, old, levels, index, old_len, new);
    return true;
}

/* Finds the packets in a frame, those in tunnels only if they are changed. */
static void find_levels(struct rewriter *rewriter, const struct packet *packet, struct levels *levels)
{
    struct packet inner = *packet;
    begin_levels(levels, packet);
    if (!rewriter->has_tunnels) return;
    do
        parse_captured(&rewriter->parts, &inner);
    while (enter_level(levels, &rewriter->parts, &inner));
}

bool rewrite_packet(struct rewriter *rewriter, struct packet *packet)
{
    const struct packet old = *packet;
    struct levels levels;
    if (!packet->is_ip || packet->is_left_out) return true;
    find_levels(rewriter, packet, &levels);
    for (size_t i = levels.count; i-- > 0;)
        if (!rewrite_level(rewriter, packet, &old, &levels, i)) return false;
    if (packet->block && packet->frame != old.frame) make_block(packet, rewriter->buffer, &old);
    return true;
}

/* Reports a number of packets, unless it is 0. */
static void report_packets(const char *name, uint64_t count, const char *what)
{
    if (count > 0) complain("%s: %llu %s %s", name, (unsigned long long)count, count == 1 ? "packet" : "packets", what);
}

void report_rewrites(const struct rewriter *rewriter, const char *name)
{
    report_refusals(name, rewriter->refused, "packet", "packets");
    report_packets(name, rewriter->without_checksums, "with a transport checksum that no longer holds");
    report_packets(name, rewriter->without_check_values, "with an integrity check value that no longer holds");
}

void end_rewriter(struct rewriter *rewriter)
{
    free(rewriter->buffer);
}
