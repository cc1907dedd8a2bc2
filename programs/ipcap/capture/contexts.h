/*
 * Numbers for where fragments arrive: an interface, VLANs, and the tunnels around them. The library takes a number of 32 bits, and
 * different places have different ones.
 */
#ifndef IPCAP_CONTEXTS_H
#define IPCAP_CONTEXTS_H

#include <stdbool.h>
#include <stddef.h>
#include <stdint.h>

#include "commands/budget.h"
#include "packets/levels.h"

/* All zeros are none. */
struct contexts {
    void *tree;      /* of those that have a number */
    uint32_t count;
    uint64_t memory; /* number of bytes that they have taken from the account */
};

/*
 * Stores the number of the place of the last packet: where its frame arrived, which is a number of its own, and the addresses,
 * numbers and inner VLANs of all tunnels around it. Returns false if memory runs out.
 */
bool number_context(struct contexts *contexts, struct account *account, uint32_t arrival, const struct levels *levels,
                    const uint8_t *frame, uint32_t *number);

/* Takes their memory from an account that was opened again. */
void take_contexts(const struct contexts *contexts, struct account *account);

/* Frees them. */
void end_contexts(struct contexts *contexts);

#endif
