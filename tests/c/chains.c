/*
 * Tests wolfaren_chains_init, _add, _add_key, _merge and _clear, wolfaren_count_packet_and_chain and
 * wolfaren_count_packets_and_chains: keys of packets worked out by hand from RFC 791 and RFC 8200, order,
 * full tables, paths, and random keys compared with a plain list.
 */
#include "wolfaren.h"

#include <stdio.h>
#include <stdlib.h>
#include <string.h>

enum { KEYS = 300, ROUNDS = 20000 };

static const uint64_t seed[2] = {0x0123456789abcdef, 0xfedcba9876543210};

static void expect(bool holds, const char *what)
{
    if (holds) return;
    fprintf(stderr, "chains: failed: %s\n", what);
    exit(1);
}

/* Returns counts with so many entries, in memory with other contents. */
static struct wolfaren_chains *make(size_t entries)
{
    size_t size = wolfaren_chains_size(entries);
    void *memory = malloc(size);
    expect(memory != NULL, "memory");
    memset(memory, 0xa5, size);
    struct wolfaren_chains *chains = wolfaren_chains_init(memory, size, seed);
    expect((void *)chains == memory && chains->room == entries && chains->count == 0 && chains->other == 0, "empty counts");
    return chains;
}

static void expect_entry(const struct wolfaren_chains *chains, size_t index, const uint8_t *key, size_t len, uint64_t count)
{
    expect(index < chains->count, "an entry");
    const struct wolfaren_chain_count *entry = &chains->entries[index];
    expect(entry->len == len && memcmp(entry->key, key, len) == 0, "the key of an entry");
    expect(entry->count == count, "the count of an entry");
}

static const uint8_t udp[28] = {0x45, 0, 0, 28, [8] = 64, 17, [12] = 192, 0, 2, 1, 192, 0, 2, 2, [25] = 8};

/* Hop-by-hop options and a fragment header before UDP. */
static const uint8_t options[64] = {0x60, [5] = 24, 0, 64, [40] = 44, 0, 1, 4, [48] = 17, [61] = 8};

static void test_packets(void)
{
    static const uint8_t udp_key[] = {4, 17, WOLFAREN_CHAIN_WHOLE}, options_key[] = {6, 17, WOLFAREN_CHAIN_WHOLE, 0, 44};
    static const uint8_t truncated_key[] = {6, 44, WOLFAREN_CHAIN_TRUNCATED, 0}, path[] = {0x41, 0};
    static const uint8_t inner_key[] = {0x41, 0, 4, 17, WOLFAREN_CHAIN_WHOLE};
    struct wolfaren_chains *chains = make(4);
    wolfaren_chains_add(chains, NULL, 0, options, sizeof options);
    wolfaren_chains_add(chains, NULL, 0, udp, sizeof udp);
    wolfaren_chains_add(chains, NULL, 0, options, 50);
    wolfaren_chains_add(chains, path, sizeof path, udp, sizeof udp);
    wolfaren_chains_add(chains, NULL, 0, options, sizeof options);
    wolfaren_chains_add(chains, NULL, 0, udp, 19); /* no base header */
    wolfaren_chains_add(chains, NULL, 0, NULL, 0);
    expect(chains->count == 4 && chains->other == 0, "four chains");
    expect_entry(chains, 0, options_key, sizeof options_key, 2);
    expect_entry(chains, 1, udp_key, sizeof udp_key, 1);
    expect_entry(chains, 2, truncated_key, sizeof truncated_key, 1);
    expect_entry(chains, 3, inner_key, sizeof inner_key, 1);
    wolfaren_chains_add(chains, path, 1, udp, sizeof udp);
    expect(chains->count == 4 && chains->other == 1, "a fifth chain is another one");
    expect(wolfaren_chains_clear(chains) && chains->count == 0 && chains->other == 0, "cleared");
    free(chains);
}

static void test_limits(void)
{
    uint8_t key[WOLFAREN_CHAIN_KEY_LEN + 1] = {6};
    struct wolfaren_chains *chains = make(2), *none = make(0);
    wolfaren_chains_add_key(chains, key, sizeof key - 1, UINT64_MAX);
    wolfaren_chains_add_key(chains, key, sizeof key - 1, 1);
    wolfaren_chains_add_key(chains, key, sizeof key, 5);
    expect_entry(chains, 0, key, sizeof key - 1, UINT64_MAX);
    expect(chains->count == 1 && chains->other == 5, "a key that is too long");
    wolfaren_chains_add_key(chains, NULL, 0, 2);
    expect_entry(chains, 1, key, 0, 2);
    wolfaren_chains_merge(none, chains);
    expect(none->count == 0 && none->other == UINT64_MAX, "counts without entries");
    free(chains);
    free(none);
    expect(wolfaren_chains_size(SIZE_MAX) == SIZE_MAX && wolfaren_chains_size(SIZE_MAX / 64) == SIZE_MAX, "too many entries");
    uint64_t words[64];
    expect(wolfaren_chains_init(words, wolfaren_chains_size(0) - 1, seed) == NULL, "memory that isn't enough");
    expect(wolfaren_chains_init((uint8_t *)words + 4, wolfaren_chains_size(0), seed) == NULL, "memory that isn't aligned");
    memset(words, 0, sizeof words);
    expect(!wolfaren_chains_clear((struct wolfaren_chains *)words), "counts without a bucket");
}

static void expect_same(const struct wolfaren_chains *one, const struct wolfaren_chains *other)
{
    expect(one->count == other->count && one->other == other->other, "as many chains");
    for (size_t i = 0; i < one->count; i++) {
        const struct wolfaren_chain_count *entry = &other->entries[i];
        expect_entry(one, i, entry->key, entry->len, entry->count);
    }
}

/* Counts packets and their chains together, one by one and as a batch, and compares with counts of each apart. */
static void test_together(void)
{
    static const struct wolfaren_packet_span spans[] = {{28, 64}, {0, 28}, {28, 50}, {0, 19}, {92, 0}, {28, 64}, {0, 92}};
    enum { SPANS = sizeof spans / sizeof *spans, ROOM = 2 };
    struct wolfaren_chains *apart = make(ROOM), *together = make(ROOM), *batch = make(ROOM);
    struct wolfaren_statistics counts[3];
    struct wolfaren_packet_span outside_spans[] = {spans[0], {28, 65}};
    uint8_t bytes[sizeof udp + sizeof options];
    size_t outside = 99;
    memcpy(bytes, udp, sizeof udp);
    memcpy(bytes + sizeof udp, options, sizeof options);
    for (size_t i = 0; i < 3; i++) wolfaren_init_statistics(&counts[i]);
    for (size_t i = 0; i < SPANS; i++) {
        wolfaren_count_packet(&counts[0], bytes + spans[i].offset, spans[i].len);
        wolfaren_chains_add(apart, NULL, 0, bytes + spans[i].offset, spans[i].len);
        wolfaren_count_packet_and_chain(&counts[1], together, NULL, 0, bytes + spans[i].offset, spans[i].len);
    }
    expect(wolfaren_count_packets_and_chains(&counts[2], batch, bytes, sizeof bytes, spans, SPANS, &outside), "a batch");
    expect(counts[1].packets == 7 && counts[1].without_header == 2 && counts[1].ipv4 == 2 && counts[1].ipv6 == 3, "the packets");
    expect(together->count == ROOM && together->entries[0].count == 2 && together->entries[1].count == 2 && together->other == 1,
           "the chains");
    expect(memcmp(&counts[0], &counts[1], sizeof *counts) == 0 && memcmp(&counts[0], &counts[2], sizeof *counts) == 0, "the counts");
    expect_same(apart, together);
    expect_same(apart, batch);
    expect(!wolfaren_count_packets_and_chains(&counts[2], batch, bytes, sizeof bytes, outside_spans, 2, &outside) && outside == 1,
           "a packet outside the bytes");
    expect(memcmp(&counts[0], &counts[2], sizeof *counts) == 0, "nothing is counted");
    expect_same(apart, batch);
    expect(wolfaren_count_packets_and_chains(&counts[2], batch, NULL, 0, NULL, 0, &outside), "no packets");
    wolfaren_count_packet_and_chain(&counts[0], apart, (const uint8_t[]){0x41, 0}, 2, NULL, 0);
    expect(counts[0].packets == 8 && apart->other == 1, "no bytes have no chain");
    free(apart);
    free(together);
    free(batch);
}

/* Counts a packet after paths up to the longest one with which its key has room. */
static void test_paths(void)
{
    uint8_t key[WOLFAREN_CHAIN_KEY_LEN] = {0}, path[WOLFAREN_CHAIN_KEY_LEN + 1];
    struct wolfaren_chains *chains = make(1);
    struct wolfaren_statistics statistics;
    wolfaren_init_statistics(&statistics);
    for (size_t len = 0; len < sizeof path; len++) {
        memset(path, 0x41, sizeof path);
        memset(key, 0x41, sizeof key);
        wolfaren_chains_clear(chains);
        wolfaren_count_packet_and_chain(&statistics, chains, path, len, options, sizeof options);
        expect(chains->count == (len <= WOLFAREN_CHAIN_KEY_LEN - 5) && chains->other == !chains->count, "keys that have room");
        if (chains->count == 0) continue;
        memcpy(key + len, (const uint8_t[]){6, 17, WOLFAREN_CHAIN_WHOLE, 0, 44}, 5);
        expect_entry(chains, 0, key, len + 5, 1);
    }
    expect(statistics.packets == sizeof path, "each packet is counted");
    free(chains);
}

static uint32_t state = 90211;

static uint32_t random_below(uint32_t limit)
{
    state = state * 1664525u + 1013904223u;
    return (state >> 8) % limit;
}

/* Counts random keys in three tables that are merged, in one table, and in a plain list. */
static void test_merge(size_t room)
{
    struct wolfaren_chains *total = make(room), *all = make(room), *part = make(KEYS);
    uint64_t counts[KEYS] = {0}, other = 0;
    uint32_t order[KEYS];
    size_t used = 0;
    for (int round = 0; round < ROUNDS; round++) {
        uint32_t key = random_below(KEYS) * (random_below(4) + 1) % KEYS;
        uint8_t bytes[6] = {6, (uint8_t)key, (uint8_t)(key >> 8), 0, 0, 0};
        size_t len = 3 + key % 4;
        wolfaren_chains_add_key(all, bytes, len, 1);
        wolfaren_chains_add_key(part, bytes, len, 1);
        size_t place = 0;
        while (place < used && order[place] != key) place++;
        if (place == used && used < room) order[used++] = key;
        if (place < used) counts[place]++; else other++;
        if (round % (ROUNDS / 3) != 0) continue;
        wolfaren_chains_merge(total, part);
        wolfaren_chains_clear(part);
    }
    wolfaren_chains_merge(total, part);
    expect(all->count == used && all->other == other && total->count == used && total->other == other, "as many chains");
    for (size_t i = 0; i < used; i++) {
        uint8_t bytes[6] = {6, (uint8_t)order[i], (uint8_t)(order[i] >> 8), 0, 0, 0};
        expect_entry(all, i, bytes, 3 + order[i] % 4, counts[i]);
        expect_entry(total, i, bytes, 3 + order[i] % 4, counts[i]);
    }
    free(total);
    free(all);
    free(part);
}

int main(void)
{
    test_packets();
    test_limits();
    test_together();
    test_paths();
    test_merge(KEYS);
    test_merge(KEYS / 3);
    puts("chains: ok");
    return 0;
}
