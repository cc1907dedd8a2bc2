/*
 * Compares calls for many packets with loops of calls for one packet, over the same packets in one buffer.
 *
 * usage: batches [COUNT CALL SIDE]
 *
 * Without arguments, times both sides by turns, and prints for each call the nanoseconds that a packet takes in a loop and in
 * the call for many, and their ratio: the minimum of 200 runs each. With arguments, makes one kind of call COUNT times for
 * valgrind: CALL is count, filter or dissect, and SIDE is one or many.
 */
#include "wolfaren.h"

#include <stdio.h>
#include <stdlib.h>
#include <string.h>
#include <time.h>

enum { PACKETS = 4096, MAX_PACKET = 160, RUNS = 200 };

static uint8_t buffer[PACKETS * MAX_PACKET];
static size_t buffer_len;
static struct wolfaren_packet_span spans[PACKETS];
static struct wolfaren_statistics statistics;
static struct wolfaren_dissection dissections[PACKETS];
static uint8_t matches[PACKETS];
static struct wolfaren_filter filter;

static void die(const char *what)
{
    fprintf(stderr, "batches: %s\n", what);
    exit(1);
}

/* Appends a packet of IPv4 or IPv6 with UDP or TCP, and some bytes of payload. */
static void add_packet(struct wolfaren_packet_span *span, uint32_t random)
{
    uint8_t *at = buffer + buffer_len;
    const bool is_ipv4 = random & 1;
    const uint8_t number = random & 2 ? 6 : 17, payload = (uint8_t)(20 + (random >> 2) % 80);
    *span = (struct wolfaren_packet_span){buffer_len, (is_ipv4 ? 20u : 40u) + payload};
    at[0] = is_ipv4 ? 0x45 : 0x60;
    at[is_ipv4 ? 3 : 5] = is_ipv4 ? (uint8_t)(20 + payload) : payload;
    at[is_ipv4 ? 9 : 6] = number;
    at[is_ipv4 ? 8 : 7] = 64;
    buffer_len += span->len;
}

static void make_packets(void)
{
    struct wolfaren_filter_error error;
    const char *text = "udp and payload > 40 or ip6 and not fault";
    uint32_t random = 1;
    for (size_t i = 0; i < PACKETS; i++) {
        random = random * 1664525u + 1013904223u;
        add_packet(&spans[i], random >> 16);
    }
    if (!wolfaren_parse_filter(text, strlen(text), &filter, &error)) die("the filter isn't one");
    wolfaren_init_statistics(&statistics);
}

static void count_one(void)
{
    for (size_t i = 0; i < PACKETS; i++) wolfaren_count_packet(&statistics, buffer + spans[i].offset, spans[i].len);
}

static void count_many(void)
{
    size_t outside;
    if (!wolfaren_count_packets(&statistics, buffer, buffer_len, spans, PACKETS, &outside)) die("a span is outside");
}

static void filter_one(void)
{
    for (size_t i = 0; i < PACKETS; i++) matches[i] = wolfaren_filter_matches(&filter, buffer + spans[i].offset, spans[i].len);
}

static void filter_many(void)
{
    size_t outside;
    if (!wolfaren_filter_packets(&filter, buffer, buffer_len, spans, PACKETS, matches, PACKETS, &outside)) die("a span is outside");
}

static void dissect_one(void)
{
    for (size_t i = 0; i < PACKETS; i++) wolfaren_dissect(buffer + spans[i].offset, spans[i].len, NULL, 0, &dissections[i]);
}

static void dissect_many(void)
{
    size_t outside;
    if (!wolfaren_dissect_packets(buffer, buffer_len, spans, PACKETS, dissections, PACKETS, &outside)) die("a span is outside");
}

static const struct row {
    const char *name;
    void (*one)(void), (*many)(void);
} rows[] = {{"count", count_one, count_many}, {"filter", filter_one, filter_many}, {"dissect", dissect_one, dissect_many}};

static double nanoseconds(void (*run)(void))
{
    struct timespec began, ended;
    clock_gettime(CLOCK_MONOTONIC, &began);
    run();
    clock_gettime(CLOCK_MONOTONIC, &ended);
    return (double)(ended.tv_sec - began.tv_sec) * 1e9 + (double)(ended.tv_nsec - began.tv_nsec);
}

static void compare(const struct row *row)
{
    double one = 1e18, many = 1e18;
    for (int i = 0; i < RUNS; i++) {
        const double a = nanoseconds(row->one), b = nanoseconds(row->many);
        one = a < one ? a : one;
        many = b < many ? b : many;
    }
    printf("%-8s %6.1f ns in a loop, %6.1f ns together: %.2f\n", row->name, one / PACKETS, many / PACKETS, many / one);
}

int main(int count, char **arguments)
{
    make_packets();
    for (size_t i = 0; i < sizeof rows / sizeof *rows; i++) {
        if (count == 1) compare(&rows[i]);
        if (count != 4 || strcmp(arguments[2], rows[i].name) != 0) continue;
        for (long left = atol(arguments[1]); left > 0; left--) (strcmp(arguments[3], "one") == 0 ? rows[i].one : rows[i].many)();
    }
    return 0;
}
