/* Makes packets of a capture whole from their fragments. */
#ifndef IPCAP_FRAGMENTS_H
#define IPCAP_FRAGMENTS_H

#include <stdbool.h>
#include <stdint.h>

#include "capture/capture.h"
#include "commands/budget.h"
#include "commands/losses.h"
#include "packets/kept.h"

/* How many packets can be incomplete at once, unless it is said otherwise. */
enum { DEFAULT_SLOTS = 4096 };

struct defragmenter;

/* Returns how much memory so many slots have at most, also with a report. Stops at UINT64_MAX. */
uint64_t memory_of_slots(uint64_t slots, bool has_report);

/* Returns how many packets can be incomplete at once within a budget: DEFAULT_SLOTS, or fewer. */
uint64_t slots_within(uint64_t memory);

/*
 * Begins to make packets whole, of which at most `slots` are incomplete at once. Each of these takes memory that the account was
 * promised when its first fragment arrives. With `has_tunnels`, packets in tunnels are made whole, too. If `keeps`, the numbers of
 * fragments that make no packet whole are kept for `begin_second_pass`. Returns null if there isn't enough memory. The account has
 * to be open until the defragmenter is stopped, or if it keeps fragments, until it ends.
 */
struct defragmenter *begin_defragmenter(struct account *account, uint64_t slots, bool has_tunnels, bool keeps);

/* Writes a line to the report for each packet that is given up, and for each fragment that is dropped by itself. */
void report_losses(struct defragmenter *defragmenter, struct loss_report *report);

/*
 * Makes `read_packet` read a whole packet in place of the fragment that completes it, and no other fragment. The whole packet
 * has that fragment's number and time, and the link header of its first fragment. One in a tunnel has the outer headers of the
 * fragment that completes it, with lengths and checksums that follow.
 */
void pass_whole(struct defragmenter *defragmenter, struct capture *capture);

/* Gives up what isn't whole, and releases the slots. Call it once no more packets are read. */
void stop_defragmenter(struct defragmenter *defragmenter);

/*
 * Begins to read the packets of a capture once more, from the first one to the one with the number `last`, in which the first pass
 * ended: `pass_whole` then also passes the fragments that were kept, each in its place, and every packet after the last one.
 * Nothing is reported or counted. The defragmenter must have been stopped, and its account opened again. Returns false without
 * memory.
 */
bool begin_second_pass(struct defragmenter *defragmenter, uint64_t slots, uint64_t last);

/* Whether memory was enough for all fragments that were to be kept, and for all in tunnels. */
bool has_had_memory(const struct defragmenter *defragmenter);

/* Reports how many fragments of the capture made no packet whole, by reason. It must have been stopped. */
void report_fragments(const struct defragmenter *defragmenter, const char *name);

/* Ends it. Does nothing if it is null. */
void end_defragmenter(struct defragmenter *defragmenter);

#endif
