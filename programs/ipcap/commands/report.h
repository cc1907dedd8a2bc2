/* Error messages and exit statuses. */
#ifndef IPCAP_REPORT_H
#define IPCAP_REPORT_H

#include <stdbool.h>

enum { STATUS_DONE = 0, STATUS_FAILED = 1, STATUS_USAGE = 2 };

/*
 * Writes `ipcap: `, the message, formatted as by printf, and a newline to standard error. Control characters in the
 * message are escaped.
 */
void complain(const char *format, ...) __attribute__((format(printf, 1, 2)));

/* Reports that memory ran out. */
void complain_of_memory(void);

/*
 * Flushes standard output. If anything written to it was lost, reports that and returns false. The message gives the
 * reason if `errno` was 0 before the writes.
 */
bool finish_output(void);

#endif
