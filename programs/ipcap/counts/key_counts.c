/* for `getrandom`, which the GNU C library and musl have */
#define _GNU_SOURCE

#include "counts/key_counts.h"

#include <stdlib.h>
#include <string.h>
#include <sys/random.h>

/* The number of keys for which there is room at first. */
enum { FIRST_ROOM = 64 };

/* Returns a table in memory of its own, or null if memory runs out. Without random numbers, senders can guess its seed. */
static struct wolfaren_chains *make_table(size_t room)
{
    uint64_t seed[2] = {0};
    size_t size = wolfaren_chains_size(room);
    void *memory = malloc(size);
    if (memory && getrandom(seed, sizeof seed, 0) != sizeof seed) memset(seed, 0, sizeof seed);
    return memory ? wolfaren_chains_init(memory, size, seed) : NULL;
}

/* Moves the counts to a table with room for so many keys. No key was counted as other for lack of room, so nothing is lost. */
static bool grow(struct key_counts *counts, size_t room)
{
    struct wolfaren_chains *table = make_table(room);
    if (!table) return false;
    if (counts->table) wolfaren_chains_merge(table, counts->table);
    free(counts->table);
    counts->table = table;
    return true;
}

bool make_room(struct key_counts *counts, size_t more)
{
    size_t used = number_of_keys(counts), room = counts->table ? counts->table->room : 0;
    size_t wanted = more < counts->limit - used ? used + more : counts->limit;
    if (counts->table && room >= wanted) return true;
    if (room < FIRST_ROOM / 2) room = FIRST_ROOM / 2;
    while (room < wanted) room *= 2;
    return grow(counts, room < counts->limit ? room : counts->limit);
}

bool count_key(struct key_counts *counts, const uint8_t *key, size_t len, uint64_t count)
{
    if (!make_room(counts, 1)) return false;
    wolfaren_chains_add_key(counts->table, key, len, count);
    return true;
}

bool count_as_other(struct key_counts *counts, uint64_t count)
{
    static const uint8_t too_long[WOLFAREN_CHAIN_KEY_LEN + 1];
    return count_key(counts, too_long, sizeof too_long, count);
}

bool merge_key_counts(struct key_counts *total, const struct key_counts *more)
{
    if (!more->table) return true;
    if (!make_room(total, more->table->count)) return false;
    wolfaren_chains_merge(total->table, more->table);
    return true;
}

size_t number_of_keys(const struct key_counts *counts)
{
    return counts->table ? counts->table->count : 0;
}

const struct wolfaren_chain_count *key_at(const struct key_counts *counts, size_t index)
{
    return &counts->table->entries[index];
}

uint64_t count_of_others(const struct key_counts *counts)
{
    return counts->table ? counts->table->other : 0;
}

bool has_run_out(const struct key_counts *counts)
{
    return number_of_keys(counts) == counts->limit && count_of_others(counts) > 0;
}

uint64_t sum_counts(const struct key_counts *counts)
{
    uint64_t total = count_of_others(counts);
    for (size_t i = 0; i < number_of_keys(counts); i++) total = add_counts(total, key_at(counts, i)->count);
    return total;
}

void order_keys(struct key_counts *counts, int (*compare)(const void *left, const void *right))
{
    if (counts->table) qsort(counts->table->entries, counts->table->count, sizeof *counts->table->entries, compare);
}

void free_key_counts(struct key_counts *counts)
{
    free(counts->table);
    counts->table = NULL;
}
