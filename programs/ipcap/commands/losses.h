/* A report of the packets that fragments don't make whole: a line for each. */
#ifndef IPCAP_LOSSES_H
#define IPCAP_LOSSES_H

#include <stdbool.h>
#include <stddef.h>
#include <stdint.h>
#include <stdio.h>

#include "capture/capture.h"
#include "output/writer.h"
#include "packets/parts.h"

/* Of a packet with more fragments than that, the numbers of the first ones are reported. */
enum { MOST_NUMBERS = 1024 };

/* Where lines are written. All zeros are no report. */
struct loss_report {
    FILE *file;
    const char *name; /* for messages */
    int error;        /* the `errno` of the first write that failed, or 0 */
    struct parts parts;
    struct writer writer; /* of one line */
};

/* The fragments of a packet. All zeros are none. */
struct loss {
    uint8_t version;
    uint8_t protocol;
    uint8_t addresses[32]; /* source and destination, those of IPv4 in the first 8 bytes */
    uint32_t identification;
    uint64_t count;        /* number of fragments */
    uint64_t *numbers;     /* those of the first ones in the capture */
    size_t kept;           /* how many of these there are */
    size_t room;
};

/*
 * Opens the file `path`, or standard output if that is `-`. The file must be another one than the input and the output. On
 * failure, reports why and returns false.
 */
bool open_report(struct loss_report *report, const char *path, const char *input, const char *output);

/* Lets each line appear at once. */
void report_at_once(struct loss_report *report);

/* Adds the last fragment that was read. If memory runs out, it is only counted. */
void add_to_loss(struct loss_report *report, struct loss *loss, const struct capture *capture, const struct packet *packet);

/* Writes the line of a packet, and makes it one without fragments. */
void write_loss(struct loss_report *report, struct loss *loss, const char *reason);

/* Forgets the fragments of a packet. */
void forget_loss(struct loss *loss);

/* Flushes the report. Returns false if that or an earlier write failed, which is reported. Does nothing without a report. */
bool finish_report(struct loss_report *report);

/* Closes the report, if there is one. */
void end_report(struct loss_report *report);

#endif
