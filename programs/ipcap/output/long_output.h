/* Captures with packets that are longer than those of the input, as whole packets are. */
#ifndef IPCAP_LONG_OUTPUT_H
#define IPCAP_LONG_OUTPUT_H

#include "output/output.h"

/*
 * Begins an output as `begin_output` does, but for packets of any length: its snap length is at least MOST_SNAP_LEN, that of a
 * pcapng file's interfaces is 0, which means any.
 */
bool begin_long_output(struct output *output, struct capture *capture, FILE *file);

#endif
