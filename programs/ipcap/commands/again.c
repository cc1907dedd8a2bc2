#include "commands/again.h"

#include <errno.h>
#include <stdio.h>
#include <stdlib.h>
#include <string.h>
#include <sys/stat.h>
#include <unistd.h>

#include "commands/report.h"
#include "commands/stop.h"

/* A buffer size that is large enough for the path of a temporary file. */
enum { PATH_ROOM = 4096 };

/* Makes a temporary file without a name. Returns its descriptor, or -1 if that fails, which is reported. */
static int make_temporary(void)
{
    const char *folder = getenv("TMPDIR");
    char path[PATH_ROOM];
    int len = snprintf(path, sizeof path, "%s/ipcap.XXXXXX", folder && *folder ? folder : "/tmp");
    int descriptor = len < PATH_ROOM ? mkstemp(path) : -1;
    if (len >= PATH_ROOM) errno = ENAMETOOLONG;
    if (descriptor < 0)
        complain("%s: %s", path, strerror(errno));
    else
        unlink(path);
    return descriptor;
}

bool prepare_again(struct again *again, const char *path)
{
    struct stat status;
    const bool is_standard = is_standard_stream(path);
    *again = (struct again){.descriptor = -1};
    /* what isn't there is reported when it is opened */
    if ((is_standard ? fstat(STDIN_FILENO, &status) : stat(path, &status)) != 0) return true;
    if (S_ISREG(status.st_mode)) {
        again->start = is_standard ? lseek(STDIN_FILENO, 0, SEEK_CUR) : 0;
        return true;
    }
    again->descriptor = make_temporary();
    copy_bytes_to(again->descriptor);
    return again->descriptor >= 0;
}

bool keep_file(struct again *again, const struct input *input)
{
    again->name = input->capture.name;
    if (again->descriptor < 0) again->descriptor = dup(input->capture.source.descriptor);
    if (again->descriptor < 0) complain("%s: %s", again->name, strerror(errno));
    return again->descriptor >= 0;
}

bool open_again(struct again *again, struct input *input, bool *is_read)
{
    again->last = input->capture.number;
    again->was_stopped = stop_signal != 0;
    *is_read = close_input(input);
    copy_bytes_to(-1);
    if (lseek(again->descriptor, again->start, SEEK_SET) < 0) {
        complain("%s: %s", again->name, strerror(errno));
        return false;
    }
    int descriptor = again->descriptor;
    again->descriptor = -1;
    if (!reopen_input(input, descriptor, again->name)) return false;
    if (again->was_stopped) input->capture.stop = NULL;
    return true;
}

bool close_again(const struct again *again, struct input *input, bool is_read)
{
    const bool is_short = is_read && input->capture.number < again->last;
    if (is_short) complain("%s: %s", again->name, *input->capture.error ? input->capture.error : "the file has become shorter");
    end_input(input);
    close_account(&input->own);
    return !is_short;
}

void end_again(struct again *again)
{
    copy_bytes_to(-1);
    if (again->descriptor >= 0) close(again->descriptor);
}
