/* The ranges of the numbers with which conditions compare. */
#ifndef IPCAP_RANGES_H
#define IPCAP_RANGES_H

#include <stdbool.h>

#include "wolfaren.h"

/* Reports the comparisons that no packet can meet, which are likely mistakes. Returns whether there are any. */
bool has_impossible(const struct wolfaren_filter *condition);

#endif
