/* Gives up what the program doesn't need any more, where the system has means for it. */
#ifndef IPCAP_CONFINE_H
#define IPCAP_CONFINE_H

/* What the program still does besides reading and writing open files. */
enum files_needed {
    FILES_NONE, /* it opens no file, and starts no thread */
    FILES_READ  /* it opens files for reading, also by threads that it starts later, or gives up more */
};

/*
 * From now on, the system refuses what isn't needed: opening files otherwise, other programs, sockets and the like. Root becomes
 * the user nobody, and keeps one capability, for reading files, or none without files. After FILES_READ, a call with FILES_NONE
 * gives up the rest. Does what the system allows, and reports nothing. Does nothing in a build with sanitizers, and if LD_PRELOAD
 * is set, as by valgrind, since these need more. Call it before threads are started.
 */
void confine(enum files_needed needed);

#endif
