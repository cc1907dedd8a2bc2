/*
 * Tests wolfaren_count_packets, wolfaren_filter_packets and wolfaren_dissect_packets: against single calls, with spans at the
 * end of the bytes and beyond it, and with arrays of each length.
 */
#include "wolfaren.h"

#include <stdio.h>
#include <stdlib.h>
#include <string.h>

enum { IPV4_LEN = 28, IPV6_LEN = 56, BYTES = IPV4_LEN + IPV6_LEN, SPANS = 6 };

/* UDP over IPv4 from 192.0.2.1 to 192.0.2.2, and UDP after destination options over IPv6 from :: to ::. */
static const uint8_t packets[BYTES] = {0x45, 0, 0, 28, 0, 0, 0, 0, 64, 17, 0, 0, 192, 0, 2, 1, 192, 0, 2, 2, 0, 1, 0, 2, 0, 8, 0, 0,
                                       0x60, 0, 0, 0, 0, 16, 60, 64, [IPV4_LEN + 40] = 17, 0, 1, 4, 0, 0, 0, 0, 0, 1, 0, 2, 0, 8, 0, 0};

/* Both packets, the second one truncated in its header and in its payload, no bytes, and both at once. */
static const struct wolfaren_packet_span spans[SPANS] = {{0, IPV4_LEN}, {IPV4_LEN, IPV6_LEN}, {IPV4_LEN, 44}, {IPV4_LEN, 50},
                                                         {BYTES, 0}, {0, BYTES}};

static void expect(bool holds, const char *what)
{
    if (holds) return;
    fprintf(stderr, "batches: failed: %s\n", what);
    exit(1);
}

/* Returns a copy of the packets that ends where its memory ends, so that the sanitizer sees any byte read after it. */
static uint8_t *new_bytes(void)
{
    uint8_t *bytes = malloc(BYTES);
    expect(bytes != NULL, "memory");
    memcpy(bytes, packets, BYTES);
    return bytes;
}

static void test_counts(const uint8_t *bytes)
{
    struct wolfaren_statistics one, many;
    size_t outside = 99;
    for (size_t count = 0; count <= SPANS; count++) {
        wolfaren_init_statistics(&one);
        wolfaren_init_statistics(&many);
        one.ipv4 = many.ipv4 = UINT64_MAX - 1;
        for (size_t i = 0; i < count; i++) wolfaren_count_packet(&one, bytes + spans[i].offset, spans[i].len);
        expect(wolfaren_count_packets(&many, bytes, BYTES, count > 0 ? spans : NULL, count, &outside), "packets are counted");
        expect(memcmp(&one, &many, sizeof one) == 0, "the counts are those of single calls");
    }
    expect(outside == 99, "no index is stored");
    expect(many.packets == 6 && many.ipv6 == 3 && many.ipv4 == UINT64_MAX, "packets by version");
    expect(many.at_payload == 4 && many.at_truncated_header == 2 && many.incomplete == 2, "packets by end");
}

static struct wolfaren_filter parsed(const char *text)
{
    struct wolfaren_filter filter;
    struct wolfaren_filter_error error;
    expect(wolfaren_parse_filter(text, strlen(text), &filter, &error), text);
    return filter;
}

/* Tests the first `count` packets, with room for `room` results, of which those that aren't stored must keep their values. */
static void test_matches(const uint8_t *bytes, size_t count, size_t room)
{
    static const char *const texts[] = {"udp", "header dstopts", "incomplete or ip", "truncated", "not fault"};
    size_t outside = 99;
    for (size_t t = 0; t < sizeof texts / sizeof *texts; t++) {
        const struct wolfaren_filter filter = parsed(texts[t]);
        uint8_t matches[SPANS + 1];
        memset(matches, 7, sizeof matches);
        expect(wolfaren_filter_packets(&filter, bytes, BYTES, count > 0 ? spans : NULL, count, room > 0 ? matches : NULL, room,
                                       &outside),
               "packets are tested");
        for (size_t i = 0; i <= SPANS; i++) {
            const bool is_stored = i < count && i < room;
            const bool wanted = is_stored && wolfaren_filter_matches(&filter, bytes + spans[i].offset, spans[i].len);
            expect(matches[i] == (is_stored ? wanted : 7), texts[t]);
        }
    }
    expect(outside == 99, "no index is stored");
}

/* Dissects the first `count` packets, with room for `room` results, likewise. */
static void test_dissections(const uint8_t *bytes, size_t count, size_t room)
{
    struct wolfaren_dissection found[SPANS + 1], wanted[SPANS + 1];
    size_t outside = 99;
    memset(found, 7, sizeof found);
    memset(wanted, 7, sizeof wanted);
    for (size_t i = 0; i < count && i < room; i++) wolfaren_dissect(bytes + spans[i].offset, spans[i].len, NULL, 0, &wanted[i]);
    expect(wolfaren_dissect_packets(bytes, BYTES, count > 0 ? spans : NULL, count, room > 0 ? found : NULL, room, &outside),
           "packets are dissected");
    expect(memcmp(found, wanted, sizeof found) == 0, "the dissections are those of single calls");
    expect(outside == 99, "no index is stored");
}

static void test_by_hand(const uint8_t *bytes)
{
    static const uint8_t wanted[SPANS] = {1, 1, 0, 1, 0, 1};
    const struct wolfaren_filter filter = parsed("udp");
    struct wolfaren_dissection found[SPANS];
    uint8_t matches[SPANS];
    size_t outside;
    expect(wolfaren_filter_packets(&filter, bytes, BYTES, spans, SPANS, matches, SPANS, &outside), "packets are tested");
    expect(memcmp(matches, wanted, sizeof matches) == 0, "which packets lead to UDP");
    expect(wolfaren_dissect_packets(bytes, BYTES, spans, SPANS, found, SPANS, &outside), "packets are dissected");
    expect(found[0].version == 4 && found[0].payload_offset == 20 && found[5].padding == IPV6_LEN, "IPv4");
    expect(found[1].version == 6 && found[1].headers == 1 && found[1].payload_offset == 48 && found[1].payload_len == 8, "IPv6");
    expect(found[2].end == WOLFAREN_AT_TRUNCATED_HEADER && found[3].missing == 6 && found[4].version == 0, "truncated packets");
}

/* Replaces the span at an index by one that doesn't lie within the bytes. */
static void test_outside(const uint8_t *bytes, size_t index, struct wolfaren_packet_span wrong)
{
    const struct wolfaren_filter filter = parsed("udp");
    struct wolfaren_packet_span changed[SPANS];
    struct wolfaren_statistics statistics, before;
    struct wolfaren_dissection dissections[SPANS], stays[SPANS];
    uint8_t matches[SPANS] = {7, 7, 7, 7, 7, 7};
    size_t outside[3] = {99, 99, 99};
    memcpy(changed, spans, sizeof spans);
    changed[index] = wrong;
    changed[SPANS - 1] = wrong;
    wolfaren_init_statistics(&statistics);
    wolfaren_count_packet(&statistics, bytes, BYTES);
    before = statistics;
    memset(dissections, 7, sizeof dissections);
    memset(stays, 7, sizeof stays);
    expect(!wolfaren_count_packets(&statistics, bytes, BYTES, changed, SPANS, &outside[0]), "a span outside isn't counted");
    expect(!wolfaren_filter_packets(&filter, bytes, BYTES, changed, SPANS, matches, SPANS, &outside[1]), "nor tested");
    expect(!wolfaren_dissect_packets(bytes, BYTES, changed, SPANS, dissections, SPANS, &outside[2]), "nor dissected");
    for (size_t i = 0; i < 3; i++) expect(outside[i] == index, "the index of the first span outside");
    expect(memcmp(&before, &statistics, sizeof before) == 0, "nothing is counted");
    expect(matches[0] == 7 && memcmp(matches, matches + 1, SPANS - 1) == 0, "no match is stored");
    expect(memcmp(dissections, stays, sizeof stays) == 0, "no dissection is stored");
}

int main(void)
{
    static const struct wolfaren_packet_span wrong[] = {
        {0, BYTES + 1}, {BYTES, 1}, {BYTES + 1, 0}, {1, BYTES}, {SIZE_MAX, 0}, {0, SIZE_MAX}, {SIZE_MAX, 1}, {1, SIZE_MAX},
        {SIZE_MAX - 1, 3}, {BYTES, SIZE_MAX - BYTES + 1}};
    uint8_t *bytes = new_bytes();
    size_t outside = 99;
    struct wolfaren_statistics statistics;
    test_counts(bytes);
    test_by_hand(bytes);
    for (size_t count = 0; count <= SPANS; count++)
        for (size_t room = 0; room <= SPANS + 1; room++) {
            test_matches(bytes, count, room);
            test_dissections(bytes, count, room);
        }
    for (size_t i = 0; i < sizeof wrong / sizeof *wrong; i++)
        for (size_t index = 0; index < SPANS; index++) test_outside(bytes, index, wrong[i]);
    wolfaren_init_statistics(&statistics);
    expect(wolfaren_count_packets(&statistics, NULL, 0, NULL, 0, &outside) && statistics.packets == 0, "no bytes and no spans");
    expect(wolfaren_count_packets(&statistics, NULL, 0, &(struct wolfaren_packet_span){0, 0}, 1, &outside), "a span of no bytes");
    expect(statistics.packets == 1 && statistics.without_header == 1 && outside == 99, "a packet of no bytes");
    free(bytes);
    return 0;
}
