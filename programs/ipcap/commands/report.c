#include "commands/report.h"

#include <errno.h>
#include <stdarg.h>
#include <stdio.h>
#include <string.h>

#include "output/text.h"

/* A message is cut after this length, which is more than that of any path. */
enum { MESSAGE_ROOM = 8192 };

void complain(const char *format, ...)
{
    char message[MESSAGE_ROOM];
    va_list arguments;
    va_start(arguments, format);
    vsnprintf(message, sizeof message, format, arguments);
    va_end(arguments);
    fputs("ipcap: ", stderr);
    write_escaped(stderr, message);
    fputc('\n', stderr);
}

void complain_of_memory(void)
{
    complain("out of memory");
}

bool finish_output(void)
{
    if (fflush(stdout) == 0 && !ferror(stdout)) return true;
    complain("standard output: %s", errno ? strerror(errno) : "write failed");
    return false;
}
