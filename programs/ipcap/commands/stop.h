/*
 * Stops reading at SIGINT, SIGTERM or SIGHUP, so that what was read is written to its end. The program then ends by the
 * signal. A second signal ends it at once.
 */
#ifndef IPCAP_STOP_H
#define IPCAP_STOP_H

#include <signal.h>
#include <stdbool.h>

/* The signal that stopped reading, or 0. */
extern volatile sig_atomic_t stop_signal;

/*
 * Ignores the first SIGINT, which the program at the other end of a pipe receives too: whatever it still writes is read. Call
 * it before the pipe is opened.
 */
void spare_interrupt(void);

/* Begins to handle the signals, unless they are ignored. For an input that was opened; until then, they end the program. */
void begin_stopping(void);

/* Ends that for an input. */
void end_stopping(void);

/* Waits until bytes have arrived. Returns false if a signal stopped reading. */
bool wait_for_bytes(int descriptor);

/* Ends the program by the signal that stopped reading. Does nothing if none did. */
void end_by_signal(void);

#endif
