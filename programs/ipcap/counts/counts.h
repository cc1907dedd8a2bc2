/*
 * Statistics of captured packets. The library counts and merges their struct wolfaren_statistics and their chains, and its
 * calls are proved. Mismatched packets, and what protocols there are, are found here, which is only tested.
 */
#ifndef IPCAP_COUNTS_H
#define IPCAP_COUNTS_H

#include <stdbool.h>

#include "capture/capture.h"
#include "counts/key_counts.h"
#include "wolfaren.h"

struct packet_counts {
    struct wolfaren_statistics statistics;
    uint64_t mismatched; /* packets whose IP version isn't the one that the number before them stands for */
    struct key_counts chains;    /* of the packets with an IP header, by the numbers of the headers and what follows them */
    struct key_counts protocols; /* of the frames without an IP packet, by the last number that says what they carry */
};

struct counts {
    struct packet_counts outer; /* of frames and the packets in them */
    struct packet_counts inner; /* of what tunnels carry: packets, or frames, each in the payload of another packet */
    bool has_inner;             /* tunnels are followed, otherwise `inner` has no packets */
};

/* Makes statistics of no packets, which count at most so many chains apart. */
void init_counts(struct counts *counts, bool has_inner, uint64_t chains);

/* Counts the packets of an open capture, as far as it can be read. Returns false if memory runs out. */
bool count_capture(struct counts *counts, struct capture *capture);

/* Adds the statistics `more` to `total`. Returns false if memory runs out. */
bool merge_counts(struct counts *total, const struct counts *more);

/* Whether the counts are consistent, as those of packets always are, also after they have stopped at UINT64_MAX. */
bool do_add_up(const struct counts *counts);

/* Returns whether there were more different chains than are counted apart. */
bool has_other_chains(const struct counts *counts);

void free_counts(struct counts *counts);

#endif
