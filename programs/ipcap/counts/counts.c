#include "counts/counts.h"

#include "counts/chain_text.h"
#include "counts/protocol_key.h"
#include "packets/parts.h"

static void init_packet_counts(struct packet_counts *counts, uint64_t chains)
{
    wolfaren_init_statistics(&counts->statistics);
    counts->chains.limit = chains < UINT32_MAX ? (size_t)chains : UINT32_MAX;
    counts->protocols.limit = MOST_PROTOCOL_NAMES;
}

void init_counts(struct counts *counts, bool has_inner, uint64_t chains)
{
    *counts = (struct counts){.has_inner = has_inner};
    init_packet_counts(&counts->outer, chains);
    init_packet_counts(&counts->inner, chains);
}

/* Counts a packet after a path, and its chain. Returns false if memory runs out. */
static bool count_ip(struct packet_counts *counts, const struct path *path, const struct inner *packet)
{
    if (is_mismatched(&packet->protocol, packet->bytes, packet->len)) counts->mismatched = add_counts(counts->mismatched, 1);
    if (!make_room(&counts->chains, 1)) return false;
    wolfaren_count_packet_and_chain(&counts->statistics, counts->chains.table, path->bytes, path->len, packet->bytes, packet->len);
    return true;
}

/* Counts a frame without an IP packet, also by its protocol. Returns false if memory runs out. */
static bool count_other(struct packet_counts *counts, const struct protocol *protocol)
{
    struct key key;
    wolfaren_count_other_frame(&counts->statistics);
    if (protocol_key(protocol, &key)) return count_key(&counts->protocols, key.bytes, key.len, 1);
    return count_as_other(&counts->protocols, 1);
}

/*
 * Counts a packet of a capture and, if tunnels are followed, what it carries, what that carries, and so on. If the snap
 * length truncated the frame, it truncated each of these too. Returns false if memory runs out.
 */
static bool count_packet(struct counts *counts, struct parts *parts, const struct packet *packet)
{
    if (packet->is_left_out) return true;
    struct packet_counts *current = &counts->outer;
    struct path path;
    begin_path(&path);
    struct inner inner = {.is_ip = packet->is_ip, .bytes = packet->frame + packet->ip_offset,
                          .len = packet->header.caplen - packet->ip_offset, .protocol = packet->protocol};
    for (;;) {
        if (packet->is_short) wolfaren_count_truncated_frame(&current->statistics);
        if (!inner.is_ip) return count_other(current, &inner.protocol);
        if (!count_ip(current, &path, &inner)) return false;
        if (!counts->has_inner || path.tunnels == PATH_TUNNELS) return true;
        parse_packet(parts, inner.bytes, inner.len);
        if (!find_inner(parts, &inner)) return true;
        extend_path(&path, parts, inner.tunnel);
        current = &counts->inner;
    }
}

bool count_capture(struct counts *counts, struct capture *capture)
{
    struct parts parts = {0};
    struct packet packet;
    bool is_counted = true;
    while (is_counted && read_packet(capture, &packet)) is_counted = count_packet(counts, &parts, &packet);
    return is_counted;
}

static bool merge_packet_counts(struct packet_counts *total, const struct packet_counts *more)
{
    /* false only if one of them isn't from init_counts */
    if (!wolfaren_merge_statistics(&total->statistics, &more->statistics)) return false;
    total->mismatched = add_counts(total->mismatched, more->mismatched);
    return merge_key_counts(&total->chains, &more->chains) && merge_key_counts(&total->protocols, &more->protocols);
}

bool merge_counts(struct counts *total, const struct counts *more)
{
    total->has_inner |= more->has_inner;
    return merge_packet_counts(&total->outer, &more->outer) && merge_packet_counts(&total->inner, &more->inner);
}

static uint64_t sum(const uint64_t *counts, size_t len)
{
    uint64_t total = 0;
    for (size_t i = 0; i < len; i++) total = add_counts(total, counts[i]);
    return total;
}

#define SUM(array) sum((const uint64_t *)(array), sizeof(array) / sizeof(uint64_t))

/*
 * Whether the table has no more chains of an IP version than there are packets of that version, and as many if none is
 * counted as `other`.
 */
static bool has_chains(const struct key_counts *chains, uint8_t version, uint64_t packets)
{
    uint64_t total = 0;
    for (size_t i = 0; i < number_of_keys(chains); i++)
        if (version_of(key_at(chains, i)) == version) total = add_counts(total, key_at(chains, i)->count);
    return total <= packets && (count_of_others(chains) > 0 || total == packets);
}

static bool are_consistent(const struct packet_counts *counts)
{
    const struct wolfaren_statistics *of = &counts->statistics;
    uint64_t ip = add_counts(of->ipv4, of->ipv6);
    const uint64_t ends[] = {of->at_payload, of->at_later_fragment, of->at_truncated_header, of->at_fault};
    const uint64_t fragments[] = {of->atomic_fragments, of->first_fragments, of->middle_fragments, of->last_fragments};
    return add_counts(ip, of->without_header) == of->packets && SUM(ends) == of->packets
        && of->truncated_frames <= add_counts(of->packets, of->other_frames) && SUM(fragments) <= ip
        && counts->mismatched <= of->packets
        && of->incomplete <= ip && SUM(of->chain_headers) == ip && SUM(of->chain_bytes) == ip
        && SUM(of->payload_numbers) == of->at_payload && SUM(of->later_fragment_numbers) == of->at_later_fragment
        && SUM(of->truncated_headers) == of->at_truncated_header && SUM(of->faults) == of->at_fault
        && sum_counts(&counts->chains) == ip && has_chains(&counts->chains, 4, of->ipv4)
        && has_chains(&counts->chains, 6, of->ipv6) && sum_counts(&counts->protocols) == of->other_frames;
}

bool do_add_up(const struct counts *counts)
{
    return are_consistent(&counts->outer) && are_consistent(&counts->inner);
}

bool has_other_chains(const struct counts *counts)
{
    return has_run_out(&counts->outer.chains) || has_run_out(&counts->inner.chains);
}

static void free_packet_counts(struct packet_counts *counts)
{
    free_key_counts(&counts->chains);
    free_key_counts(&counts->protocols);
}

void free_counts(struct counts *counts)
{
    free_packet_counts(&counts->outer);
    free_packet_counts(&counts->inner);
}
