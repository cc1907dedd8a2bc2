#include "output/copy.h"

#include <errno.h>
#include <string.h>
#include <sys/stat.h>
#include <unistd.h>

#include "capture/source.h"
#include "commands/report.h"

/* Returns what the system says of a file, or of a standard stream. */
static bool look_at(const char *path, int stream, struct stat *status)
{
    return (is_standard_stream(path) ? fstat(stream, status) : stat(path, status)) == 0;
}

bool is_input(const char *output, const char *path)
{
    struct stat to, from;
    if (!look_at(output, STDOUT_FILENO, &to) || !S_ISREG(to.st_mode) || !look_at(path, STDIN_FILENO, &from)) return false;
    return to.st_dev == from.st_dev && to.st_ino == from.st_ino;
}

bool is_same_output(const char *path, const char *other)
{
    struct stat one, two;
    if (!look_at(path, STDOUT_FILENO, &one) || !S_ISREG(one.st_mode) || !look_at(other, STDOUT_FILENO, &two)) return false;
    return one.st_dev == two.st_dev && one.st_ino == two.st_ino;
}

static const char same_words[] = "input and output are the same file";

bool is_any_overwritten(const char *const *paths, size_t count)
{
    bool is_any = false;
    for (size_t i = 0; i < count && !is_any; i++) is_any = is_input(NULL, paths[i]);
    if (is_any) complain("standard output: %s", same_words);
    return is_any;
}

static const char *name_of(const char *path)
{
    return is_standard_stream(path) ? "standard output" : path;
}

bool open_copy(struct output *output, const char *path, struct capture *capture, const char *input, begin_call *begin)
{
    bool is_standard = is_standard_stream(path);
    bool is_same = is_input(path, input);
    FILE *file = is_same ? NULL : is_standard ? stdout : fopen(path, "wb");
    if (file && begin(output, capture, file)) return true;
    complain("%s: %s", name_of(path), is_same ? same_words : file ? output->error : strerror(errno));
    return false;
}

bool finish_copy(struct output *output, const char *path)
{
    errno = 0;
    if (flush_output(output)) return true;
    complain("%s: %s", name_of(path), output->error);
    return false;
}
