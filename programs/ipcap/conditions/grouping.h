/* How `and` and `or` without parentheses are read. */
#ifndef IPCAP_GROUPING_H
#define IPCAP_GROUPING_H

#include <stdbool.h>
#include <stddef.h>

/*
 * Says on standard error how a condition is read if tcpdump would read it otherwise: if `and` follows `or` without parentheses,
 * since both have equal precedence there. The `len` bytes have to be a condition. Returns false if memory runs out.
 */
bool tell_grouping(const char *text, size_t len);

#endif
