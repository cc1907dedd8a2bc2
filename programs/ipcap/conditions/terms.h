/* The terms of conditions. */
#ifndef IPCAP_TERMS_H
#define IPCAP_TERMS_H

/* Writes a line for each term, with what it means and an example, and then what its arguments may be. */
void print_terms(void);

#endif
