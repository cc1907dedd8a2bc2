/* Writes captures, and decides which packets they have. Prints nothing: errors are kept as text. */
#ifndef IPCAP_OUTPUT_H
#define IPCAP_OUTPUT_H

#include <stdbool.h>
#include <stddef.h>
#include <stdint.h>
#include <stdio.h>

#include "capture/capture.h"
#include "output/numbered.h"
#include "wolfaren.h"

/* The snap length of an output for several files: libpcap's greatest one for the link layers that are supported. */
enum { MOST_SNAP_LEN = 262144 };

/* A capture that is written. All zeros are one that isn't begun. `has_numbers` is set before that. */
struct output {
    FILE *file;            /* null until the output is begun */
    bool is_classic;       /* it is a classic file, otherwise a pcapng file */
    bool is_joint;         /* it is for several files, so its timestamps are in nanoseconds */
    bool has_numbers;      /* it is a pcapng file, in which each packet has its number in a comment */
    bool is_fine;          /* with numbers, whether its timestamps are in nanoseconds */
    struct numbered numbered;
    uint64_t unnumbered;   /* the first packet whose block would be too long with its number, or 0 */
    uint64_t written;      /* number of packets */
    char error[CAPTURE_ERROR_ROOM]; /* why writing failed, otherwise empty */
    int system_error;               /* the `errno` of that if the system refused it, otherwise 0 */
};

/*
 * Begins an output in the format of an open capture. Of a classic file, it has the link layer, the snap length and the
 * timestamp precision, with numbers in a pcapng file. Of a pcapng file, it has the head, which the capture must have kept, and later
 * blocks that aren't packets are copied while the capture is read. On failure, sets `error` and returns false. The file is then
 * closed, here or by `end_output`, unless it is standard output.
 */
bool begin_output(struct output *output, struct capture *capture, FILE *file);

/*
 * Begins a classic file for the packets of several files, which keeps all bytes and timestamps of any of them. The link
 * type is one of libpcap's DLT_ values. Errors are as for `begin_output`.
 */
bool begin_joint_output(struct output *output, int link_type, FILE *file);

/* Begins a classic file, or with numbers a pcapng file, of this form. Errors are as for `begin_output`. */
bool begin_form(struct output *output, const struct classic_form *form, FILE *file);

/* Begins a pcapng file without interfaces, which has no packets. Errors are as for `begin_output`. */
bool begin_empty_output(struct output *output, FILE *file);

/* Whether writing failed, so that nothing more can be written. */
bool has_output_failed(const struct output *output);

/* Writes the packet that was read last. Flushes it immediately if the capture is live. On failure, sets `error`. */
void write_packet(struct output *output, const struct capture *capture, const struct packet *packet);

/* Writes blocks of a pcapng file. Flushes them immediately if the capture is live. On failure, sets `error` and returns false. */
bool write_blocks(struct output *output, const struct capture *capture, const uint8_t *blocks, size_t len);

/* Flushes an output that was begun. Returns false if that or an earlier write failed; `error` then says why. */
bool flush_output(struct output *output);

/* Closes the output if it was begun. */
void end_output(struct output *output);

/* Whether a packet meets a condition. A packet whose link layer isn't supported meets none. */
bool does_match(const struct wolfaren_filter *condition, const struct packet *packet);

#endif
