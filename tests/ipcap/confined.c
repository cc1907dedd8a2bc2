/*
 * confined HOW FILE: gives up what ipcap gives up, and prints which calls of the system still succeed. HOW is `none` if no file is
 * needed, `reading` if files are read, and `both` for the one after the other.
 */
#include "commands/confine.h"

#include <errno.h>
#include <fcntl.h>
#include <pthread.h>
#include <signal.h>
#include <stdio.h>
#include <stdlib.h>
#include <string.h>
#include <sys/mman.h>
#include <sys/socket.h>
#include <sys/stat.h>
#include <unistd.h>

static void print(const char *name, int is_done)
{
    printf("%s %s\n", name, is_done ? "done" : "refused");
}

static void *work(void *place)
{
    char *memory = malloc(1 << 20);
    if (memory) memset(memory, 1, 1 << 20);
    *(int *)place = memory != NULL;
    free(memory);
    return NULL;
}

static int has_threads(void)
{
    pthread_t thread;
    int is_done = 0;
    if (pthread_create(&thread, NULL, work, &is_done) != 0) return 0;
    pthread_join(thread, NULL);
    return is_done;
}

static int has_processes(void)
{
    pid_t process = fork();
    if (process == 0) _exit(0);
    return process > 0;
}

static int maps(int protection)
{
    return mmap(NULL, 4096, protection, MAP_PRIVATE | MAP_ANONYMOUS, -1, 0) != MAP_FAILED;
}

int main(int count, char **arguments)
{
    char byte, created[4096], *const command[] = {arguments[0], NULL};
    if (count != 3) return 2;
    snprintf(created, sizeof created, "%s.new", arguments[2]);
    int file = open(arguments[2], O_RDWR);
    if (arguments[1][0] != 'n') confine(FILES_READ);
    if (arguments[1][0] != 'r') confine(FILES_NONE);
    print("read", read(file, &byte, 1) == 1);
    print("write", write(file, "", 1) == 1);
    print("seek", lseek(file, 0, SEEK_SET) == 0);
    print("memory", maps(PROT_READ | PROT_WRITE));
    print("terminal", !isatty(file) && errno == ENOTTY);
    print("threads", has_threads());
    print("process", has_processes());
    print("open", open(arguments[2], O_RDONLY) >= 0);
    print("open-to-write", open(arguments[2], O_WRONLY) >= 0);
    print("truncate", open(arguments[2], O_RDONLY | O_TRUNC) >= 0);
    print("create", open(created, O_RDONLY | O_CREAT, 0600) >= 0);
    print("remove", unlink(arguments[2]) == 0);
    print("mode", chmod(arguments[2], 0600) == 0);
    print("code", maps(PROT_READ | PROT_EXEC));
    print("socket", socket(AF_INET, SOCK_STREAM, 0) >= 0);
    print("kill", kill(getppid(), 0) == 0);
    fflush(stdout);
    execv(arguments[0], command);
    print("program", 0);
    fflush(stdout);
    raise(SIGTERM);
    return 3;
}
