/* Prints the programs of classic BPF of conditions, which the kernel runs. */
#ifndef IPCAP_BYTECODE_H
#define IPCAP_BYTECODE_H

#include <stdbool.h>

#include "wolfaren.h"

/* How a program is printed: not at all, in numbers as by `tcpdump -ddd`, or in words as by `tcpdump -d`. */
enum bytecode { BYTECODE_NONE, BYTECODE_NUMBERS, BYTECODE_TEXT };

/* Which packets a program accepts of those that it can't decide. With UNDECIDED_NONE, there may be none. */
enum undecided { UNDECIDED_NONE, UNDECIDED_KEEP, UNDECIDED_DROP };

/* Read the arguments of options: a null pointer or `text`, and `keep` or `drop`. */
bool read_bytecode_argument(const char *argument, void *place);
bool read_undecided_argument(const char *argument, void *place);

/*
 * Prints the program of a condition, for packets that begin with an IP header. Returns -1, or reports an error and returns the
 * exit status: if the program can't decide each packet, although it has to, or if it is too long.
 */
int print_bytecode(const struct wolfaren_filter *condition, enum bytecode form, enum undecided undecided);

#endif
