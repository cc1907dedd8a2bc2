/*
 * The library libwolfaren-pcap, by which other languages read captures with libpcap: they count packets as `ipcap stat`
 * does, read them one after another, and filter them as `ipcap filter` does. The header needs C99 or C++11, or a later
 * standard.
 *
 * For every call: a path is that of a file; `-` has no special meaning. `error` has room for WOLFAREN_PCAP_ERROR_ROOM
 * bytes. A call that fails writes why, with a terminating null byte; otherwise, `error` is the empty text. Each call
 * with an `error` sets `errno`: to the system's error if the system refused to open, to read or to write a file,
 * otherwise to 0. Any number of threads may make calls at the same time, but only one at a time with the same reader. A
 * call uses less than 160 KB of stack. On a processor without the instructions of libwolfaren, each call that opens a
 * capture fails.
 */
#ifndef WOLFAREN_PCAP_H
#define WOLFAREN_PCAP_H

#include <stdbool.h>
#include <stddef.h>
#include <stdint.h>

/* A checksum of the structs, numbers and calls in this header, made by scripts/abi of the repository. */
#define WOLFAREN_PCAP_ABI 0x8ff11947u

/* The symbol that is named after the checksum. */
#define WOLFAREN_PCAP_ABI_SYMBOL wolfaren_pcap_abi_8ff11947

/* What keeps an object that nothing uses, also if the linker drops unused sections. */
#ifdef __has_attribute
#if __has_attribute(retain)
#define WOLFAREN_PCAP_RETAINED __attribute__((used, retain))
#endif
#endif
#if defined(__GNUC__) && !defined(WOLFAREN_PCAP_RETAINED)
#define WOLFAREN_PCAP_RETAINED __attribute__((used))
#elif !defined(WOLFAREN_PCAP_RETAINED)
#define WOLFAREN_PCAP_RETAINED
#endif

#ifdef __cplusplus
extern "C" {
#endif

/*
 * Each file that includes this header refers to the library's symbol for this interface. A program that was compiled for
 * another interface can't be linked with the library, nor loaded. A program that isn't linked with the library, but loads
 * it by dlopen, defines WOLFAREN_UNLINKED before it includes the header.
 */
#ifndef WOLFAREN_UNLINKED
extern const char WOLFAREN_PCAP_ABI_SYMBOL;
static const char *const wolfaren_pcap_needed_abi WOLFAREN_PCAP_RETAINED = &WOLFAREN_PCAP_ABI_SYMBOL;
#endif

/* A buffer size that is large enough for any text of an error and its terminating null byte. */
#define WOLFAREN_PCAP_ERROR_ROOM 512

/* A buffer size that is large enough for any packet: the size of the largest block of a pcapng file that is read. */
#define WOLFAREN_PCAP_PACKET_ROOM 16777216

/*
 * Counts the packets of the capture in a file, which may be compressed with gzip, zstd or xz. Returns a line of JSON as
 * `ipcap stat --json` prints it, which the caller releases with wolfaren_pcap_free.
 *
 * If the file can't be read to its end, returns the counts of the packets up to there, and writes why to `error`.
 * Returns null, and writes why, if the file can't be opened or isn't a capture with a supported link layer, or if
 * memory runs out.
 */
char *wolfaren_pcap_count(const char *path, char error[WOLFAREN_PCAP_ERROR_ROOM]);

/* Releases what wolfaren_pcap_count has returned. The pointer may be null. */
void wolfaren_pcap_free(char *json);

/*
 * Sets what a call asks if the handler of a signal has run while the call waited for a file, such as a pipe. If that
 * returns true, the call fails, and `errno` is EINTR; otherwise the call waits on, as each does while nothing is set or
 * the pointer is null. Make this call while no other call is made.
 */
void wolfaren_pcap_stop_waiting_if(bool (*is_stopped)(void));

/* A capture that is being read. */
struct wolfaren_pcap_reader;

/* An IP packet of a capture, and the frame that carries it. */
struct wolfaren_pcap_packet {
    uint64_t number;       /* number of the frame in the capture: 1 for the first */
    int64_t seconds;       /* when the frame was captured: seconds since 1970-01-01, 00:00:00 UTC, .. */
    int64_t nanoseconds;   /* .. and nanoseconds, from 0 to 999,999,999 unless the capture is damaged */
    int32_t link_type;     /* link layer of the frame: one of libpcap's DLT_ values */
    bool has_time;         /* false for a packet of pcapng without a time from 1970 to July 2554, which is then 0 */
    uint32_t captured_len; /* how many bytes of the frame the capture has */
    uint32_t original_len; /* length of the frame in bytes */
    size_t ip_offset;      /* where the packet begins in the frame, in bytes */
    size_t offset;         /* where the packet begins in the buffer, in bytes */
    size_t len;            /* number of bytes from the packet's first one to the end of the captured frame */
};

/*
 * Opens a capture. The caller closes it with wolfaren_pcap_close. Returns null, and writes why to `error`, if the file
 * can't be opened or isn't a capture with a supported link layer, or if memory runs out.
 */
struct wolfaren_pcap_reader *wolfaren_pcap_open(const char *path, char error[WOLFAREN_PCAP_ERROR_ROOM]);

/*
 * Returns libpcap's name of a link layer, such as "EN10MB" for Ethernet, or the empty text if libpcap has no name for
 * the number. The text is never released.
 */
const char *wolfaren_pcap_link_layer_name(int32_t link_type);

/*
 * Reads the next IP packets of a capture and returns their number: at most `room`, which must be above 0, and only as
 * many as fit into the buffer of `bytes_room` bytes, which must be WOLFAREN_PCAP_PACKET_ROOM or more. Writes the fields
 * of each packet to `packets`, and its bytes to the buffer. Frames without an IP packet are left out.
 *
 * Returns 0 at the end of the capture, and writes to `error` if it can't be read to its end, or which interfaces of a
 * pcapng file have a link layer that isn't supported: their packets are left out. Of a file that isn't regular, such as
 * a pipe, reads one packet in each call, as soon as it arrives.
 */
size_t wolfaren_pcap_read(struct wolfaren_pcap_reader *reader, struct wolfaren_pcap_packet *packets, size_t room,
                          uint8_t *bytes, size_t bytes_room, char error[WOLFAREN_PCAP_ERROR_ROOM]);

/* Closes a capture. The pointer may be null. */
void wolfaren_pcap_close(struct wolfaren_pcap_reader *reader);

/* What wolfaren_pcap_filter returns: that the capture was filtered, or where that failed. */
enum {
    WOLFAREN_PCAP_FILTERED = 0,
    WOLFAREN_PCAP_CONDITION_FAILED = 1, /* the text isn't a filter */
    WOLFAREN_PCAP_INPUT_FAILED = 2,
    WOLFAREN_PCAP_OUTPUT_FAILED = 3,
    WOLFAREN_PCAP_LEFT_OUT = 4 /* filtered, without the packets of interfaces with a link layer that isn't supported */
};

/* Numbers of frames. */
struct wolfaren_pcap_counts {
    uint64_t frames;  /* frames that were read */
    uint64_t written; /* frames among them that meet the condition */
};

/*
 * Writes the frames of a capture that meet a condition to an open file, as `ipcap filter -w` does. For a pcapng file,
 * the output is a pcapng file with the interfaces and other blocks of the one that is read. For a pcap file, it is a
 * pcap file with the link layer, snap length and precision of the one that is read. It isn't compressed. The condition
 * is a text for wolfaren_parse_filter, with `condition_len` bytes. `output` is the file's descriptor, which stays open.
 *
 * Returns WOLFAREN_PCAP_FILTERED if the capture was read to its end and all was written. Otherwise writes why not to
 * `error`, and returns one of the other numbers. The output then lacks the packets of the interfaces that `error` names
 * (WOLFAREN_PCAP_LEFT_OUT), or may have some of the frames. Always sets `counts`.
 */
int wolfaren_pcap_filter(const char *condition, size_t condition_len, const char *input, int output,
                         struct wolfaren_pcap_counts *counts, char error[WOLFAREN_PCAP_ERROR_ROOM]);

#ifdef __cplusplus
}
#endif

#endif
