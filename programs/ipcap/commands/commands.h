/* The subcommands. Each takes arguments like main and returns the exit status. */
#ifndef IPCAP_COMMANDS_H
#define IPCAP_COMMANDS_H

int run_stat(int count, char **arguments);
int run_sum(int count, char **arguments);
int run_filter(int count, char **arguments);
int run_show(int count, char **arguments);
int run_defrag(int count, char **arguments);
int run_rewrite(int count, char **arguments);

#endif
