/* Reads captures packet by packet. Prints nothing: errors are kept as text. */
#ifndef IPCAP_CAPTURE_H
#define IPCAP_CAPTURE_H

#include <pcap/pcap.h>
#include <signal.h>
#include <stdbool.h>
#include <stddef.h>
#include <stdint.h>
#include <time.h>

#include "capture/link_type.h"
#include "capture/protocol.h"
#include "capture/source.h"
#include "wolfaren.h"

/* A buffer size that is large enough for the text of every error and its terminating null byte. */
enum { CAPTURE_ERROR_ROOM = PCAP_ERRBUF_SIZE + 64 };

/* Why nothing is read on a processor without the library's instructions. */
#define UNSUPPORTED_CPU "this processor lacks instructions of x86-64-v2, such as SSE4.2"

/* The greatest number of captured bytes of a record in a classic file, as in libpcap. */
enum { MOST_CAPTURED = 1 << 18 };

/* The length of the longest block of a pcapng file, as in libpcap, and the most interfaces of one of its sections. */
enum { MOST_BLOCK = 1 << 24, MOST_INTERFACES = 1 << 16 };

/* How many link layers that aren't supported are named. */
enum { MOST_LEFT_OUT = 8 };

/* What only captures in a pcapng file have. */
struct capture_blocks {
    struct wolfaren_record first; /* the first packet, if it is ahead */
    bool is_ahead;      /* the first packet wasn't taken yet */
    bool has_begun;     /* the first packet was found, or there are too many blocks before it */
    bool has_interface; /* there is one with a supported link layer */
    uint8_t *block;     /* that of the last packet, which may be changed until more is read */
    uint8_t *head;      /* the blocks before the first packet, except those that must not be copied, or null if it isn't kept */
    size_t head_len;
    size_t head_room;   /* allocated for the head */
    int left_out[MOST_LEFT_OUT]; /* the link layers that aren't supported, one of libpcap's DLT_ values each */
    size_t left_out_count;
    char left_out_names[CAPTURE_ERROR_ROOM];
};

/* What the header of a classic file says of its packets. */
struct classic_form {
    int link_type;      /* one of libpcap's DLT_ values */
    uint32_t extension; /* the bits of its field that aren't the link type: how long the checksum after each frame is */
    uint32_t snap_len;
    bool is_fine;       /* timestamps are in nanoseconds, otherwise in microseconds */
};

struct packet;
struct capture;

/* Takes a block of a pcapng file that is no packet, and what the library returned of it. Returns false if nothing more is to be read. */
typedef bool block_call(struct capture *capture, uint8_t *block, const struct wolfaren_record *record);

struct capture {
    const char *name; /* for messages */
    bool is_classic;  /* it is a classic file, otherwise a pcapng file */
    struct classic_form form; /* of a classic file */
    struct wolfaren_capture reader;
    const struct memory_source *memory; /* for the head */
    bool keeps_head;  /* of a pcapng file, for an output */
    struct capture_blocks blocks;
    int link_type;    /* one of libpcap's DLT_ values: of a pcapng file, that of the first supported interface */
    bool is_live;    /* the input is not a regular file, so packets may arrive as they are captured */
    uint64_t number; /* number of packets read so far */
    const volatile sig_atomic_t *stop; /* null, or not 0 once no more packets are to be read */
    void (*follow)(struct capture *capture); /* called after each packet is read, unless it is null */
    /* Called with each packet that was read, unless it is null. May change it. If it returns false, the packet is skipped. */
    bool (*pass)(struct capture *capture, struct packet *packet);
    void *passer; /* for `pass` */
    /* Called with each block of a pcapng file that follows those in `head` and is no packet, unless it is null. May change it. */
    block_call *copy;
    void *copier; /* for `copy` */
    char error[CAPTURE_ERROR_ROOM];          /* why opening or reading failed, otherwise empty */
    int system_error;                        /* the `errno` of that if the system refused it, otherwise 0 */
    struct source source;
};

/* A packet of a capture. `frame` is valid until the next packet is read. */
struct packet {
    struct pcap_pkthdr header; /* its time is only set in classic files, as they have it */
    struct timespec time;      /* if it has one */
    const uint8_t *frame;
    uint32_t interface;   /* its number in the section, 0 in a classic file */
    int link_type;        /* one of libpcap's DLT_ values */
    const uint8_t *block; /* of a pcapng file, the block with the packet, otherwise null */
    size_t block_len;
    bool is_big_endian;   /* the numbers of the block have their most significant byte first */
    bool is_left_out;     /* its link layer isn't supported */
    bool has_time;
    bool is_ip;
    bool is_short;               /* truncated by the snap length */
    size_t ip_offset;            /* where the IP packet begins in the frame */
    struct wolfaren_frame found; /* what was found in the frame */
    struct protocol protocol;    /* the last number that says what the frame carries */
    uint32_t vlans;              /* the identifiers of its VLAN tags, as `vlans_of` returns them */
};

/*
 * Opens a file or standard input. An output with the blocks of a pcapng file needs its head, which is otherwise not kept.
 * Decompression and the head ask `memory`, or take what they need if that is null. On failure, sets `error` and returns false.
 */
bool open_capture(struct capture *capture, const char *path, const struct memory_source *memory, bool keeps_head);

/* Opens a file that is open already, as `open_capture` does, but keeps no head. The name is for messages. */
bool open_capture_of(struct capture *capture, int descriptor, const char *name, const struct memory_source *memory);

/*
 * Reads the next packet and returns true. At the end, on failure, and if reading has to stop, returns false. Both of the latter
 * set `error`.
 */
bool read_packet(struct capture *capture, struct packet *packet);

/* Whether the timestamps of a capture may be in nanoseconds. If not, they are in microseconds. */
bool has_nanoseconds(const struct capture *capture);

/* Whether the capture was read to its end. */
bool is_read_whole(const struct capture *capture);

/* Whether a capture has an interface whose link layer isn't supported, so that its packets are left out. */
bool is_any_left_out(const struct capture *capture);

/* Adds to `error` the link layers because of which packets are left out. Call it once no more packets are read. */
void report_left_out(struct capture *capture);

/* Closes a capture that was opened. If packets were left out because of their link layer, `error` then names it. */
void close_capture(struct capture *capture);

#endif
