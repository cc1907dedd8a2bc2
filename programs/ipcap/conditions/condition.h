/* Conditions on the packets of captures, read from the command line. */
#ifndef IPCAP_CONDITION_H
#define IPCAP_CONDITION_H

#include <stdbool.h>
#include <stddef.h>
#include <stdint.h>

#include "wolfaren.h"

/*
 * Parses the condition in the `count` arguments, which are joined with spaces: in all of them if `is_whole` is set,
 * otherwise in as many of the first ones as are a condition. `count` must be above 0. Returns -1 and stores the number
 * of these arguments in `taken`, or reports an error and returns the exit status.
 */
int read_condition(struct wolfaren_filter *condition, int count, char *const *arguments, bool is_whole, int *taken);

/* Whether the arguments are a condition. Reports nothing, also if memory runs out. */
bool is_condition(int count, char *const *arguments);

#endif
