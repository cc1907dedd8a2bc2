/*
 * Times wolfaren_defragmenter_add for fragments of 1,280 bytes that are interleaved over 1,000 packets, and for floods of fragments
 * whose packets never become whole, beside a copy of the same bytes with a look-up of the packet in a hash table. The keys of a flood
 * are identifications in order, random, or chosen: keys that collide if their words are reduced by the prime 4294967291.
 *
 * usage: PROGRAM [ROUNDS [JOB]]
 *        PROGRAM write FILE
 *
 * Each round has 50,000 fragments. JOB is `whole`, `ipv4`, `flood`, `random`, `chosen`, `copy` or `none`; without it, prints
 * nanoseconds for each fragment of each job, the least of several rounds, and ratios to the copy. `write` writes the IPv4 fragments
 * to a file, each after its length in four bytes, in network byte order.
 */
#define _DEFAULT_SOURCE

#include "wolfaren.h"

#include <stdio.h>
#include <stdlib.h>
#include <string.h>
#include <sys/mman.h>
#include <time.h>

enum { KEYS = 1000, PIECES = 50, FRAGMENTS = KEYS * PIECES, LEN = 1280, DATA = LEN - 48, SLOTS = 4096, TABLE = 4096 };
enum { IPV4_DATA = 1256, IPV4_LEN = 20 + IPV4_DATA };
/* the words of a key: both addresses and the identification */
enum { WORDS = 9 };
#define PRIME UINT32_C(4294967291)

static uint8_t *fragments, *ipv4_fragments, *flood;
static struct wolfaren_defragmenter *defragmenter;
static uint64_t now;
static uint32_t flooded, random_keys[FRAGMENTS][WORDS], chosen_keys[FRAGMENTS][WORDS];

struct entry {
    uint8_t key[36];
    uint32_t index; /* of the packet, from 1 on; 0 if the entry is free */
};

static struct entry table[TABLE];
static uint8_t *copies;
static uint32_t copied_keys;

static void *reserve(size_t len)
{
    void *memory = mmap(NULL, len, PROT_READ | PROT_WRITE, MAP_PRIVATE | MAP_ANONYMOUS | MAP_NORESERVE, -1, 0);
    if (memory == MAP_FAILED) exit(2);
    return memory;
}

static void put_word(uint8_t *place, uint32_t word)
{
    for (int i = 0; i < 4; i++) place[i] = (uint8_t)(word >> (24 - 8 * i));
}

/* Fragment j of each packet, then fragment j + 1 of each. */
static void make_fragments(void)
{
    for (unsigned i = 0; i < FRAGMENTS; i++) {
        uint8_t *bytes = fragments + (size_t)i * LEN;
        unsigned piece = i / KEYS, offset = piece * DATA | (piece < PIECES - 1 ? 1 : 0);
        bytes[0] = 0x60;
        bytes[4] = (LEN - 40) >> 8;
        bytes[5] = (LEN - 40) & 255;
        bytes[6] = 44;
        bytes[23] = (uint8_t)(i % KEYS % 251);
        bytes[39] = 2;
        bytes[40] = 17;
        bytes[42] = (uint8_t)(offset >> 8);
        bytes[43] = (uint8_t)offset;
        put_word(bytes + 44, i % KEYS);
        memset(bytes + 48, (int)i, DATA);
    }
}

/* Fragments of IPv4 packets in the same order, without checksums. */
static void make_ipv4_fragments(void)
{
    for (unsigned i = 0; i < FRAGMENTS; i++) {
        uint8_t *bytes = ipv4_fragments + (size_t)i * IPV4_LEN;
        unsigned piece = i / KEYS, key = i % KEYS, field = piece * (IPV4_DATA / 8) | (piece < PIECES - 1 ? 0x2000 : 0);
        const uint8_t header[20] = {0x45, 0, IPV4_LEN >> 8, IPV4_LEN & 255, (uint8_t)(key >> 8), (uint8_t)key, (uint8_t)(field >> 8),
                                    (uint8_t)field, 64, 17, 0, 0, 192, 0, 2, (uint8_t)(key % 251), 192, 0, 2, 2};
        memcpy(bytes, header, sizeof header);
        memset(bytes + 20, (int)i, IPV4_DATA);
    }
}

static void write_ipv4_fragments(const char *path)
{
    static const uint8_t len[4] = {0, 0, IPV4_LEN >> 8, IPV4_LEN & 255};
    FILE *file = fopen(path, "wb");
    if (file == NULL) exit(5);
    for (size_t i = 0; i < FRAGMENTS; i++) {
        fwrite(len, 1, sizeof len, file);
        fwrite(ipv4_fragments + i * IPV4_LEN, 1, IPV4_LEN, file);
    }
    if (fclose(file) != 0) exit(5);
}

static void add(const uint8_t *bytes, size_t len)
{
    struct wolfaren_added added;
    wolfaren_defragmenter_add(defragmenter, 0, bytes, len, now++, &added);
}

static void run_whole(void)
{
    for (size_t i = 0; i < FRAGMENTS; i++) add(fragments + i * LEN, LEN);
}

static void run_ipv4(void)
{
    for (size_t i = 0; i < FRAGMENTS; i++) add(ipv4_fragments + i * IPV4_LEN, IPV4_LEN);
}

/* The first fragments, each with an identification of its own. */
static void run_flood(void)
{
    for (size_t i = 0; i < FRAGMENTS; i++) {
        uint8_t *bytes = flood + i % KEYS * LEN;
        put_word(bytes + 44, 1000000 + flooded++);
        add(bytes, LEN);
    }
}

/* Random keys by SplitMix64, and keys from 2001:db8::1 and their like: to each of seven words the prime is added or not, so that
 * 128 keys of an identification collide if words are reduced by it. */
static void make_keys(void)
{
    static const uint32_t first[WORDS] = {0x20010db8, 0, 0, 1, 0, 0, 0, 2, 0};
    uint64_t state = 0;
    for (uint32_t i = 0; i < FRAGMENTS; i++) {
        for (int j = 0; j < WORDS; j++) {
            uint64_t word = state += 0x9e3779b97f4a7c15;
            word = (word ^ word >> 30) * 0xbf58476d1ce4e5b9;
            word = (word ^ word >> 27) * 0x94d049bb133111eb;
            random_keys[i][j] = (uint32_t)(word >> 32);
            chosen_keys[i][j] = first[j] + (j > 0 && j < WORDS - 1 ? (i >> (j - 1) & 1) * PRIME : 0);
        }
        chosen_keys[i][WORDS - 1] = i >> (WORDS - 2);
    }
}

/* The first fragments, each with a key of its own. */
static void run_keys(uint32_t (*keys)[WORDS])
{
    for (size_t i = 0; i < FRAGMENTS; i++) {
        uint8_t *bytes = flood + i % KEYS * LEN;
        for (int j = 0; j < WORDS; j++) put_word(bytes + (j < WORDS - 1 ? 8 + 4 * j : 44), keys[i][j]);
        add(bytes, LEN);
    }
}

static void run_random(void)
{
    run_keys(random_keys);
}

static void run_chosen(void)
{
    run_keys(chosen_keys);
}

/* Returns the number of the packet of a fragment. */
static uint32_t find(const uint8_t *bytes)
{
    uint64_t hash = 0, word;
    uint8_t key[36];
    memcpy(key, bytes + 8, 32);
    memcpy(key + 32, bytes + 44, 4);
    for (int i = 0; i < 36; i += 4) {
        memcpy(&word, key + (i < 32 ? i : 28), 8);
        hash = (hash ^ word) * 0x9e3779b97f4a7c15;
    }
    struct entry *entry = &table[hash >> 52];
    while (entry->index != 0 && memcmp(entry->key, key, 36) != 0) entry = entry == &table[TABLE - 1] ? table : entry + 1;
    if (entry->index == 0) {
        memcpy(entry->key, key, 36);
        entry->index = ++copied_keys;
    }
    return entry->index - 1;
}

static void run_copy(void)
{
    for (size_t i = 0; i < FRAGMENTS; i++) {
        const uint8_t *bytes = fragments + i * LEN;
        size_t offset = ((size_t)bytes[42] << 8 | bytes[43]) & 0xfff8;
        memcpy(copies + (size_t)find(bytes) * 65536 + offset, bytes + 48, DATA);
    }
}

static void run_none(void)
{
}

static const struct job {
    const char *name;
    void (*run)(void);
} jobs[] = {{"none", run_none}, {"copy", run_copy}, {"whole", run_whole}, {"ipv4", run_ipv4}, {"flood", run_flood},
            {"random", run_random}, {"chosen", run_chosen}};

enum { JOBS = sizeof jobs / sizeof *jobs };

static double seconds(void)
{
    struct timespec time;
    clock_gettime(CLOCK_MONOTONIC, &time);
    return (double)time.tv_sec + 1e-9 * (double)time.tv_nsec;
}

int main(int count, char **arguments)
{
    int rounds = count > 1 ? atoi(arguments[1]) : 20;
    double least[JOBS] = {0, 1e9, 1e9, 1e9, 1e9, 1e9, 1e9};
    fragments = reserve((size_t)FRAGMENTS * LEN);
    ipv4_fragments = reserve((size_t)FRAGMENTS * IPV4_LEN);
    static const uint64_t seed[2] = {0x0123456789abcdef, 0xfedcba9876543210};
    size_t size = wolfaren_defragmenter_size(SLOTS);
    defragmenter = wolfaren_defragmenter_init(reserve(size), size, seed);
    if (defragmenter == NULL) exit(3);
    copies = reserve((size_t)KEYS * 65536);
    flood = reserve((size_t)KEYS * LEN);
    make_fragments();
    memcpy(flood, fragments, (size_t)KEYS * LEN);
    make_ipv4_fragments();
    make_keys();
    if (count == 3 && strcmp(arguments[1], "write") == 0) {
        write_ipv4_fragments(arguments[2]);
        return 0;
    }
    for (int round = 0; round < rounds; round++) {
        for (int i = 0; i < JOBS; i++) {
            if (count > 2 && strcmp(arguments[2], jobs[i].name) != 0) continue;
            double start = seconds();
            jobs[i].run();
            double time = (seconds() - start) / FRAGMENTS * 1e9;
            if (i > 0 && time < least[i]) least[i] = time;
        }
    }
    if (count > 2) return 0;
    if (defragmenter->counts->outcomes[WOLFAREN_WHOLE] != (uint64_t)rounds * 2 * KEYS) return 4;
    printf("copy and look-up  %7.1f ns a fragment\n", least[1]);
    printf("whole packets     %7.1f ns a fragment: %.2f\n", least[2], least[2] / least[1]);
    printf("of IPv4           %7.1f ns a fragment: %.2f\n", least[3], least[3] / least[1]);
    printf("flood             %7.1f ns a fragment: %.2f\n", least[4], least[4] / least[1]);
    printf("of random keys    %7.1f ns a fragment: %.2f\n", least[5], least[5] / least[1]);
    printf("of chosen keys    %7.1f ns a fragment: %.2f, of random ones %.2f\n", least[6], least[6] / least[1], least[6] / least[5]);
    return 0;
}
