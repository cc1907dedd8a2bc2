/*
 * compare: reads lines `p HEX`, a packet, `h NUMBER INDEX HEX`, an extension header that the library puts into the last packet,
 * and `e TEXT`, an expression. For each expression, prints which of the packets before it the library's filter passes, with
 * the headers, and which of them libpcap's expression passes, without them, as two words of digits 0 and 1, or `-` for one
 * that is refused. `f LENGTH HEX` is an Ethernet frame of this length on the wire, and `l TEXT` an expression for frames.
 */
#include <pcap/pcap.h>
#include <stdbool.h>
#include <stdio.h>
#include <stdlib.h>
#include <string.h>

#include "wolfaren.h"

enum { MOST_PACKETS = 1000, MOST_BYTES = 2000 };

struct bytes {
    uint8_t bytes[MOST_BYTES];
    size_t len;
};

struct packet {
    struct bytes plain;
    struct bytes longer; /* with its extension headers */
};

struct frame {
    struct bytes bytes;
    unsigned wire_len;
};

static struct packet packets[MOST_PACKETS];
static struct frame frames[MOST_PACKETS];
static size_t count, frame_count;

/* Returns the bytes in hexadecimal. */
static struct bytes read_bytes(const char *digits)
{
    struct bytes read = {.len = 0};
    unsigned byte;
    for (; read.len < MOST_BYTES && sscanf(digits, "%2x", &byte) == 1; digits += 2) read.bytes[read.len++] = (uint8_t)byte;
    return read;
}

/* Stores a packet in hexadecimal. */
static void read_packet(const char *digits)
{
    if (count == MOST_PACKETS) abort();
    packets[count].plain = packets[count].longer = read_bytes(digits);
    count++;
}

/* Stores a frame: its length on the wire, and its bytes in hexadecimal. */
static void read_frame(const char *words)
{
    if (frame_count == MOST_PACKETS) abort();
    struct frame *frame = &frames[frame_count++];
    int len;
    if (sscanf(words, "%u %n", &frame->wire_len, &len) != 1) abort();
    frame->bytes = read_bytes(words + len);
}

/* Puts an extension header into the last packet. */
static void add_header(const char *words)
{
    unsigned number;
    size_t index;
    int len;
    struct bytes *packet = &packets[count - 1].longer, old = *packet;
    struct wolfaren_rewritten rewritten;
    if (sscanf(words, "%u %zu %n", &number, &index, &len) != 2) abort();
    struct bytes header = read_bytes(words + len);
    if (!wolfaren_with_header(old.bytes, old.len, (uint8_t)number, header.bytes, header.len, index, true, packet->bytes, MOST_BYTES,
                              &rewritten)) {
        fprintf(stderr, "compare: no header %u at index %zu of packet %zu\n", number, index, count);
        exit(1);
    }
    packet->len = rewritten.len;
}

/* Whether the library's filter passes a frame. */
static bool passes(const struct wolfaren_filter *filter, const struct frame *frame)
{
    struct wolfaren_frame found;
    const struct bytes *bytes = &frame->bytes;
    if (!wolfaren_find_ip(DLT_EN10MB, bytes->bytes, bytes->len, &found)) abort();
    return wolfaren_filter_matches_frame(filter, &found, frame->wire_len, bytes->bytes + found.offset, bytes->len - found.offset);
}

/* Prints which packets, or frames, the library's filter passes. */
static void print_ours(const char *text, bool is_of_frames)
{
    struct wolfaren_filter filter;
    struct wolfaren_filter_error error;
    if (!wolfaren_parse_filter(text, strlen(text), &filter, &error)) {
        putchar('-');
        return;
    }
    for (size_t i = 0; is_of_frames && i < frame_count; i++) putchar(passes(&filter, &frames[i]) ? '1' : '0');
    for (size_t i = 0; !is_of_frames && i < count; i++)
        putchar(wolfaren_filter_matches(&filter, packets[i].longer.bytes, packets[i].longer.len) ? '1' : '0');
}

/* Prints whether libpcap's program passes bytes. */
static void print_theirs_of(const struct bpf_program *program, const struct bytes *bytes, unsigned wire_len)
{
    struct pcap_pkthdr header = {.caplen = (bpf_u_int32)bytes->len, .len = wire_len};
    putchar(pcap_offline_filter(program, &header, bytes->bytes) ? '1' : '0');
}

/* Prints which packets, or frames, libpcap's expression passes. */
static void print_theirs(const char *text, bool is_of_frames)
{
    static pcap_t *raw, *ethernet;
    if (!raw) raw = pcap_open_dead(DLT_RAW, 65535);
    if (!ethernet) ethernet = pcap_open_dead(DLT_EN10MB, 65535);
    pcap_t *pcap = is_of_frames ? ethernet : raw;
    if (!pcap) abort();

    struct bpf_program program;
    if (pcap_compile(pcap, &program, text, 0, PCAP_NETMASK_UNKNOWN) != 0) {
        putchar('-');
        return;
    }
    for (size_t i = 0; is_of_frames && i < frame_count; i++) print_theirs_of(&program, &frames[i].bytes, frames[i].wire_len);
    for (size_t i = 0; !is_of_frames && i < count; i++)
        print_theirs_of(&program, &packets[i].plain, (unsigned)packets[i].plain.len);
    pcap_freecode(&program);
}

int main(void)
{
    static char line[3 * MOST_BYTES];
    while (fgets(line, sizeof line, stdin)) {
        line[strcspn(line, "\n")] = '\0';
        if (line[0] == 'p') {
            read_packet(line + 2);
        } else if (line[0] == 'h') {
            add_header(line + 2);
        } else if (line[0] == 'f') {
            read_frame(line + 2);
        } else {
            print_ours(line + 2, line[0] == 'l');
            putchar(' ');
            print_theirs(line + 2, line[0] == 'l');
            putchar('\n');
        }
    }
    return 0;
}
