/* The networks in tests of conditions. */
#ifndef IPCAP_NETWORK_H
#define IPCAP_NETWORK_H

#include <netinet/in.h>
#include <stdbool.h>

#include "wolfaren.h"

/* A buffer size that is large enough for the text of every network and its terminating null byte. */
enum { NETWORK_ROOM = INET6_ADDRSTRLEN + 4 };

/* Whether a test is one of a network. */
bool is_network(const struct wolfaren_filter_test *test);

/* Formats the network of a test as an address, a slash, and a number of bits. */
void write_network(const struct wolfaren_filter_test *test, char text[NETWORK_ROOM]);

/* Clears the bits of a network's address after its prefix. Returns whether any of them was set. */
bool clear_host_bits(struct wolfaren_filter_test *test);

#endif
