/* The words for why packets aren't changed. */
#ifndef IPCAP_REFUSALS_H
#define IPCAP_REFUSALS_H

#include <stddef.h>
#include <stdint.h>

/* The number of refusals of the library, with that of none. */
enum { REFUSALS = 15 };

/* Reports for each refusal, an enum wolfaren_refusal, how many packets it left unchanged. They are called `one` or `many`. */
void report_refusals(const char *name, const uint64_t counts[REFUSALS], const char *one, const char *many);

#endif
