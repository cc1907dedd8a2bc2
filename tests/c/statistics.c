/*
 * Tests statistics. Without arguments, tests counts at their largest and merges that are refused. With the argument
 * `count`, counts packets, which standard input has in hexadecimal, one in a line: each in one of three statistics, which
 * are then merged. Prints all counts in the order of struct wolfaren_statistics, one in a line. The first character of a
 * line says what it is: `p` for a packet, `o` for a frame without one, `t` for a truncated frame.
 */
#include "wolfaren.h"

#include <inttypes.h>
#include <stdio.h>
#include <stdlib.h>
#include <string.h>

enum { PARTS = 3, MAX_PACKET = 70000, COUNTS = (sizeof(struct wolfaren_statistics) - 8) / 8 };

static void expect(bool holds, const char *what)
{
    if (holds) return;
    fprintf(stderr, "failed: %s\n", what);
    exit(1);
}

static struct wolfaren_statistics new_statistics(void)
{
    struct wolfaren_statistics statistics;
    memset(&statistics, 0xa5, sizeof statistics);
    wolfaren_init_statistics(&statistics);
    return statistics;
}

static void test_largest(void)
{
    struct wolfaren_statistics one = new_statistics(), other = new_statistics();
    one.packets = UINT64_MAX;
    one.truncated_headers[WOLFAREN_IP_HEADER] = UINT64_MAX - 1;
    wolfaren_count_packet(&one, NULL, 0);
    wolfaren_count_packet(&one, NULL, 0);
    expect(one.packets == UINT64_MAX && one.without_header == 2, "a count stops at the largest number");
    expect(one.truncated_headers[WOLFAREN_IP_HEADER] == UINT64_MAX, "a count reaches the largest number");
    other.faults[7][15] = UINT64_MAX;
    wolfaren_count_other_frame(&other);
    expect(wolfaren_merge_statistics(&one, &other) && wolfaren_merge_statistics(&one, &other), "a merge succeeds");
    expect(one.faults[7][15] == UINT64_MAX && one.other_frames == 2, "the sums of a merge");
}

static void test_refused(void)
{
    struct wolfaren_statistics into = new_statistics(), from = new_statistics(), before;
    expect(into.version == WOLFAREN_STATISTICS_VERSION && into.size == sizeof into, "the version and the size");
    wolfaren_count_packet(&from, NULL, 0);
    for (int which = 0; which < 4; which++) {
        struct wolfaren_statistics changed = which < 2 ? into : from;
        uint32_t *field = which % 2 ? &changed.size : &changed.version;
        ++*field;
        before = which < 2 ? changed : into;
        struct wolfaren_statistics *target = which < 2 ? &changed : &into;
        expect(!wolfaren_merge_statistics(target, which < 2 ? &from : &changed), "another version or size is refused");
        expect(memcmp(target, &before, sizeof before) == 0, "a refused merge changes nothing");
    }
}

static void test_lengths(void)
{
    expect(wolfaren_least_chain_bytes(0) == 0 && wolfaren_least_chain_bytes(63) == 252, "lengths below 256");
    expect(wolfaren_least_chain_bytes(64) == 256 && wolfaren_least_chain_bytes(72) == 65536, "lengths from 256 on");
}

static size_t read_bytes(const char *digits, uint8_t *bytes)
{
    size_t len = 0;
    unsigned byte;
    for (; len < MAX_PACKET && sscanf(digits + 2 * len, "%2x", &byte) == 1; len++) bytes[len] = (uint8_t)byte;
    return len;
}

/* Counts the packet, and dissects it in the same walk or not. */
static void count_packet(struct wolfaren_statistics *part, bool is_dissected, const uint8_t *bytes, size_t len)
{
    struct wolfaren_header header;
    struct wolfaren_dissection dissection;
    if (is_dissected) wolfaren_count_dissection(part, bytes, len, &header, 1, &dissection);
    else wolfaren_count_packet(part, bytes, len);
}

static void count_lines(struct wolfaren_statistics parts[PARTS])
{
    static char line[2 * MAX_PACKET + 4];
    static uint8_t bytes[MAX_PACKET];
    for (size_t i = 0; fgets(line, sizeof line, stdin); i++) {
        struct wolfaren_statistics *part = &parts[i * i % PARTS];
        if (line[0] == 'o') wolfaren_count_other_frame(part);
        if (line[0] == 't') wolfaren_count_truncated_frame(part);
        if (line[0] == 'p') count_packet(part, i % 2 == 0, bytes, read_bytes(line + 1, bytes));
    }
}

static void print_counts(const struct wolfaren_statistics *statistics)
{
    uint64_t counts[COUNTS];
    memcpy(counts, &statistics->other_frames, sizeof counts);
    for (size_t i = 0; i < COUNTS; i++) printf("%" PRIu64 "\n", counts[i]);
}

int main(int count, char **arguments)
{
    struct wolfaren_statistics parts[PARTS];
    for (int i = 0; i < PARTS; i++) parts[i] = new_statistics();
    if (count == 1) {
        test_largest();
        test_refused();
        test_lengths();
        return 0;
    }
    expect(strcmp(arguments[1], "count") == 0, "the argument is count");
    count_lines(parts);
    expect(wolfaren_merge_statistics(&parts[2], &parts[0]), "the first merge succeeds");
    expect(wolfaren_merge_statistics(&parts[1], &parts[2]), "the second merge succeeds");
    print_counts(&parts[1]);
    return 0;
}
