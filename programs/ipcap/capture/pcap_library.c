/* The library libwolfaren-pcap. */
#include "wolfaren-pcap.h"

#include <errno.h>
#include <stdio.h>
#include <stdlib.h>

#include "capture/capture.h"
#include "capture/source.h"
#include "counts/counts.h"
#include "output/print_counts.h"

_Static_assert((int)CAPTURE_ERROR_ROOM <= WOLFAREN_PCAP_ERROR_ROOM, "every error fits");

/* The only symbols that the library exports. */
#define EXPORTED __attribute__((visibility("default")))

EXPORTED const char WOLFAREN_PCAP_ABI_SYMBOL = 0;

/* Returns the statistics as JSON, or null if memory runs out. */
static char *json_of(struct counts *counts)
{
    char *json = NULL;
    size_t len;
    FILE *file = open_memstream(&json, &len);
    if (!file) return NULL;
    print_counts(counts, file, &(struct form){.json = true});
    bool is_written = !ferror(file);
    if (fclose(file) == 0 && is_written) return json;
    free(json);
    return NULL;
}

/* A capture and its counts, which are too large for the stacks of some threads. */
struct counting {
    struct capture capture;
    struct counts counts;
};

/* Counts a capture that was opened, and closes it. Returns the statistics as JSON, or null if memory runs out. */
static char *count_opened(struct counting *counting)
{
    init_counts(&counting->counts, false, DEFAULT_CHAINS);
    char *json = count_capture(&counting->counts, &counting->capture) ? json_of(&counting->counts) : NULL;
    close_capture(&counting->capture);
    free_counts(&counting->counts);
    return json;
}

EXPORTED char *wolfaren_pcap_count(const char *path, char error[WOLFAREN_PCAP_ERROR_ROOM])
{
    struct counting *counting = malloc(sizeof *counting);
    bool is_open = counting && open_capture(&counting->capture, path, NULL, false);
    char *json = is_open ? count_opened(counting) : NULL;
    bool is_memory_short = !counting || (is_open && !json);
    int system_error = is_memory_short ? 0 : counting->capture.system_error;
    snprintf(error, WOLFAREN_PCAP_ERROR_ROOM, "%s", is_memory_short ? "out of memory" : counting->capture.error);
    free(counting);
    errno = system_error;
    return json;
}

EXPORTED void wolfaren_pcap_stop_waiting_if(bool (*is_stopped)(void))
{
    stop_waiting_if(is_stopped);
}

EXPORTED void wolfaren_pcap_free(char *json)
{
    free(json);
}
