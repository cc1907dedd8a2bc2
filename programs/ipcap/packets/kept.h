/* Which fragments of a capture are kept: the numbers of those that make no packet whole. */
#ifndef IPCAP_KEPT_H
#define IPCAP_KEPT_H

#include <stdbool.h>
#include <stdint.h>

#include "commands/budget.h"

/* A fragment that is kept, or may be. */
struct kept {
    struct kept *next;
    uint64_t number; /* in the capture */
};

/* How much memory each has, with what the allocator needs besides. */
enum { KEPT_MEMORY = sizeof(struct kept) + 16 };

/* Adds a fragment to a list. Returns false if memory runs out. */
bool keep(struct account *account, struct kept **list, uint64_t number);

/* Frees a list of fragments. */
void free_kept(struct account *account, struct kept *list);

/* Sorts a list by the numbers. It takes no memory, as an array for qsort would, when the budget may be used up. */
struct kept *sort_kept(struct kept *list);

/* Takes the memory of a list from an account that was opened again. */
void take_kept(struct account *account, const struct kept *list);

#endif
