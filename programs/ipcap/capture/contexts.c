/* for `tdestroy`, which the GNU C library and musl have */
#define _GNU_SOURCE

#include "capture/contexts.h"

#include <search.h>
#include <stdlib.h>
#include <string.h>

/* The bytes that say where a packet is: for each tunnel its kind, IP version, addresses, number and VLANs. */
enum { ADDRESSES = 32, TUNNEL_BYTES = 3 + ADDRESSES + 8, MOST_BYTES = 4 + PATH_TUNNELS * TUNNEL_BYTES };

/* How much memory a node of the tree has, with what the allocator needs besides. */
enum { NODE_MEMORY = 64 };

/* A place that has a number. */
struct context {
    uint32_t number;
    uint32_t len;
    uint8_t bytes[MOST_BYTES]; /* as many as there are are allocated */
};

static int compare(const void *a, const void *b)
{
    const struct context *one = a, *other = b;
    if (one->len != other->len) return one->len < other->len ? -1 : 1;
    return memcmp(one->bytes, other->bytes, one->len);
}

static void append(struct context *context, const void *bytes, size_t len)
{
    memcpy(context->bytes + context->len, bytes, len);
    context->len += (uint32_t)len;
}

/* Appends what tells a tunnel from others. */
static void append_tunnel(struct context *context, const struct level *level, const uint8_t *frame)
{
    const struct inner *inner = &level->inner;
    const size_t at = level->version == 4 ? 12 : 8, len = level->version == 4 ? 8 : ADDRESSES;
    const uint8_t kind[] = {(uint8_t)inner->tunnel, (uint8_t)level->version, inner->has_identifier};
    append(context, kind, sizeof kind);
    append(context, frame + level->offset + at, len);
    append(context, &inner->identifier, sizeof inner->identifier);
    append(context, &inner->vlans, sizeof inner->vlans);
}

/* Gives a place the next number. Returns null if memory runs out. */
static const struct context *add(struct contexts *contexts, struct account *account, const struct context *found)
{
    const size_t size = offsetof(struct context, bytes) + found->len;
    if (contexts->count == UINT32_MAX || !ask_for_memory(account, size + NODE_MEMORY)) return NULL;
    contexts->memory += size + NODE_MEMORY;
    struct context *context = malloc(size);
    if (!context) return NULL;
    memcpy(context, found, size);
    context->number = contexts->count++;
    if (tsearch(context, &contexts->tree, compare)) return context;
    free(context);
    return NULL;
}

bool number_context(struct contexts *contexts, struct account *account, uint32_t arrival, const struct levels *levels,
                    const uint8_t *frame, uint32_t *number)
{
    struct context wanted = {.len = 0};
    append(&wanted, &arrival, sizeof arrival);
    for (size_t i = 0; i + 1 < levels->count; i++) append_tunnel(&wanted, &levels->of[i], frame);
    struct context *const *place = tfind(&wanted, &contexts->tree, compare);
    const struct context *context = place ? *place : add(contexts, account, &wanted);
    if (context) *number = context->number;
    return context;
}

void take_contexts(const struct contexts *contexts, struct account *account)
{
    ask_for_memory(account, contexts->memory);
}

void end_contexts(struct contexts *contexts)
{
    tdestroy(contexts->tree, free);
    *contexts = (struct contexts){0};
}
