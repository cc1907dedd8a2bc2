/* Counts by key: those of the library, whose calls are proved, in memory that grows with the number of keys. */
#ifndef IPCAP_KEY_COUNTS_H
#define IPCAP_KEY_COUNTS_H

#include <stdbool.h>
#include <stddef.h>
#include <stdint.h>

#include "wolfaren.h"

/* How many chains are counted apart unless another number is given, and how many protocols. */
enum { DEFAULT_CHAINS = 65536, MOST_PROTOCOL_NAMES = 4096 };

/* Counts of at most `limit` keys. Any further key is counted as other. */
struct key_counts {
    struct wolfaren_chains *table; /* null as long as nothing is counted */
    size_t limit;
};

/* Returns the sum of two counts. Counts stop at UINT64_MAX. */
static inline uint64_t add_counts(uint64_t count, uint64_t more)
{
    return more > UINT64_MAX - count ? UINT64_MAX : count + more;
}

/* Makes room for so many more keys, as far as the limit allows. Returns false if memory runs out. */
bool make_room(struct key_counts *counts, size_t more);

/* Adds `count` to the count of a key. Returns false if memory runs out. */
bool count_key(struct key_counts *counts, const uint8_t *key, size_t len, uint64_t count);

/* Adds `count` to that of the keys that are counted as other. Returns false if memory runs out. */
bool count_as_other(struct key_counts *counts, uint64_t count);

/* Adds the counts `more` to `total`. Returns false if memory runs out. */
bool merge_key_counts(struct key_counts *total, const struct key_counts *more);

/* Return the number of keys that have a count of their own, such a key with its count, and the count of all others. */
size_t number_of_keys(const struct key_counts *counts);
const struct wolfaren_chain_count *key_at(const struct key_counts *counts, size_t index);
uint64_t count_of_others(const struct key_counts *counts);

/* Whether there were more different keys than the limit. */
bool has_run_out(const struct key_counts *counts);

/* Returns the sum of all counts. */
uint64_t sum_counts(const struct key_counts *counts);

/* Compares counts: the larger one comes first. */
static inline int compare_counts(uint64_t left, uint64_t right)
{
    return left > right ? -1 : left < right;
}

/* Sorts the keys by a comparison of two struct wolfaren_chain_count. Afterwards nothing more may be counted. */
void order_keys(struct key_counts *counts, int (*compare)(const void *left, const void *right));

void free_key_counts(struct key_counts *counts);

#endif
