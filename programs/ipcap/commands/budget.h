/*
 * The memory that the program may use: one budget for all files that are read side by side. What a file may take doesn't
 * depend on the other files: where these have taken too much, it waits until they give some back. Of the files that are read,
 * the one that began first never waits.
 */
#ifndef IPCAP_BUDGET_H
#define IPCAP_BUDGET_H

#include <stdbool.h>
#include <stddef.h>
#include <stdint.h>

/* The least budget, and the one that holds unless another is given, in bytes. */
enum { LEAST_MEMORY = 64 << 20, DEFAULT_MEMORY = 512 << 20 };

/* What one file has taken, and what it may still take. */
struct account {
    struct account *next; /* of a file that began later */
    uint64_t used;        /* bytes that were taken */
    uint64_t promised;    /* bytes that can be taken without asking */
    uint64_t may_ask;     /* bytes for which it may still ask */
};

/* Sets the budget, of which each file is promised so many bytes. Call it before a file is read. */
void set_budget(uint64_t bytes, uint64_t promised);

/* Returns how many bytes a file can have besides those that every file needs. */
uint64_t memory_for_file(uint64_t budget);

/* Returns how many files can be read side by side. */
size_t files_within_budget(void);

/* Begins to read a file, which won't make others wait for more than so many bytes for which it asks. */
void open_account(struct account *account, uint64_t may_ask);

/* Takes bytes. Returns false if the file then had more than the budget. */
bool ask_for_memory(struct account *account, uint64_t bytes);

/* Takes bytes of those that were promised, as far as there are as many. */
void take_promised(struct account *account, uint64_t bytes);

/* Gives back bytes that were taken. */
void give_memory_back(struct account *account, uint64_t bytes);

/* Gives back all. Does nothing if the account wasn't opened. */
void close_account(struct account *account);

#endif
