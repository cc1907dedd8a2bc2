#include "capture/input.h"

#include <stdio.h>
#include <sys/stat.h>
#include <unistd.h>

#include "commands/report.h"
#include "commands/stop.h"
#include "output/text.h"

/* How many packets are read between two checks whether to update the progress line. */
enum { PROGRESS_PACKETS = 1024 };

/* Determines how long the file at a path is, and ignores an interrupt if it is a pipe. */
static void look_at_file(struct input *input, const char *path)
{
    struct stat status;
    if ((is_standard_stream(path) ? fstat(STDIN_FILENO, &status) : stat(path, &status)) != 0) return;
    if (S_ISREG(status.st_mode)) input->len = status.st_size;
    if (S_ISFIFO(status.st_mode)) spare_interrupt();
}

/* What moves the cursor to the start of the line and erases the line. */
static const char erase[] = "\r\033[K";

/* Erases the progress line, if there is one. */
static void clear_progress(struct input *input)
{
    if (input->is_progress_shown) fputs(erase, stderr);
    input->is_progress_shown = false;
}

/* Whether a second has begun since progress was last shown. If so, stores the time. */
static bool is_due(struct timespec *shown)
{
    struct timespec now;
    if (clock_gettime(CLOCK_MONOTONIC, &now) != 0 || now.tv_sec == shown->tv_sec) return false;
    *shown = now;
    return true;
}

/* Whether progress may be shown while standard output is used: on one terminal, the two would mix. */
static bool shows_progress(void)
{
    return isatty(STDERR_FILENO) && !isatty(STDOUT_FILENO);
}

void begin_files_progress(struct files_progress *progress)
{
    *progress = (struct files_progress){.is_allowed = shows_progress()};
    is_due(&progress->shown);
}

void show_files_progress(struct files_progress *progress, size_t done, size_t count)
{
    if (!progress->is_allowed || !is_due(&progress->shown)) return;
    progress->is_shown = true;
    fprintf(stderr, "%s%zu of %zu files", erase, done, count);
    fflush(stderr);
}

void clear_files_progress(struct files_progress *progress)
{
    if (progress->is_shown) fputs(erase, stderr);
    progress->is_shown = false;
}

/* Updates the progress line, once per second. */
static void show_progress(struct capture *capture)
{
    struct input *input = (struct input *)capture;
    if (capture->number % PROGRESS_PACKETS != 0 || !is_due(&input->shown)) return;
    input->is_progress_shown = true;
    fputs(erase, stderr);
    write_escaped(stderr, capture->name);
    fprintf(stderr, ": %llu packets", (unsigned long long)capture->number);
    double at = (double)capture->source.position;
    if (input->len > 0 && at <= (double)input->len)
        fprintf(stderr, ", %d %%", (int)(at * 100 / (double)input->len));
    fflush(stderr);
}

void allow_progress(struct input *input)
{
    bool is_shown = isatty(STDERR_FILENO) && clock_gettime(CLOCK_MONOTONIC, &input->shown) == 0;
    input->capture.follow = is_shown ? show_progress : NULL;
}

static bool report_error(const struct capture *capture)
{
    if (is_read_whole(capture)) return true;
    complain("%s: %s", capture->name, capture->error);
    return false;
}

struct account *account_of(struct capture *capture)
{
    return ((struct input *)capture)->account;
}

/* Opens an account once the format of a file is known: until then, which may take long, nobody waits for it. */
static void begin_account(void *account, uint64_t most)
{
    open_account(account, most);
}

/* Asks an account for memory. */
static bool ask(void *account, uint64_t bytes)
{
    return ask_for_memory(account, bytes);
}

/* Sets from which account memory is taken. */
static void set_account(struct input *input, struct account *account)
{
    input->account = account;
    input->memory = (struct memory_source){begin_account, ask, account};
}

/* Begins to read an input that was opened. */
static void begin_reading(struct input *input)
{
    input->capture.stop = &stop_signal;
    begin_stopping();
    if (shows_progress()) allow_progress(input);
}

bool begin_input(struct input *input, const char *path, struct account *account, bool keeps_head)
{
    set_account(input, account);
    look_at_file(input, path);
    if (!open_capture(&input->capture, path, &input->memory, keeps_head)) return false;
    input->capture.source.wait = wait_for_bytes;
    begin_reading(input);
    return true;
}

void end_input(struct input *input)
{
    clear_progress(input);
    close_capture(&input->capture);
    end_stopping();
}

bool open_input(struct input *input, const char *path, bool keeps_head)
{
    *input = (struct input){0};
    if (begin_input(input, path, &input->own, keeps_head)) return true;
    close_account(&input->own);
    return report_error(&input->capture);
}

bool reopen_input(struct input *input, int descriptor, const char *name)
{
    *input = (struct input){0};
    set_account(input, &input->own);
    if (open_capture_of(&input->capture, descriptor, name, &input->memory)) {
        begin_reading(input);
        return true;
    }
    close_account(&input->own);
    return report_error(&input->capture);
}

bool close_input(struct input *input)
{
    end_input(input);
    close_account(&input->own);
    return report_error(&input->capture);
}
