/* Prints the programs of conditions. */
#ifndef IPCAP_CONDITION_TEXT_H
#define IPCAP_CONDITION_TEXT_H

#include "conditions/condition.h"

/*
 * Writes a line for each test of a condition: the index of the test, its term, and where it leads a packet that meets it
 * and one that doesn't.
 */
void print_program(const struct wolfaren_filter *filter);

#endif
