#include "packets/kept.h"

#include <stdlib.h>

bool keep(struct account *account, struct kept **list, uint64_t number)
{
    if (!ask_for_memory(account, KEPT_MEMORY)) return false;
    struct kept *kept = malloc(sizeof *kept);
    if (!kept) {
        give_memory_back(account, KEPT_MEMORY);
        return false;
    }
    *kept = (struct kept){*list, number};
    *list = kept;
    return true;
}

void free_kept(struct account *account, struct kept *list)
{
    while (list) {
        struct kept *next = list->next;
        give_memory_back(account, KEPT_MEMORY);
        free(list);
        list = next;
    }
}

void take_kept(struct account *account, const struct kept *list)
{
    for (; list; list = list->next) ask_for_memory(account, KEPT_MEMORY);
}

/* Merges two sorted lists. */
static struct kept *merge(struct kept *a, struct kept *b)
{
    struct kept *first = NULL, **end = &first;
    while (a && b) {
        struct kept **least = a->number <= b->number ? &a : &b;
        *end = *least;
        end = &(*end)->next;
        *least = (*least)->next;
    }
    *end = a ? a : b;
    return first;
}

struct kept *sort_kept(struct kept *list)
{
    struct kept *sorted[64] = {NULL}, *all = NULL;
    while (list) {
        struct kept *one = list;
        size_t i = 0;
        list = list->next;
        one->next = NULL;
        for (; i < 63 && sorted[i]; i++) {
            one = merge(sorted[i], one);
            sorted[i] = NULL;
        }
        sorted[i] = one;
    }
    for (size_t i = 0; i < 64; i++) all = merge(sorted[i], all);
    return all;
}
