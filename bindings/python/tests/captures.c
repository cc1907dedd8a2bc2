/*
 * captures OUTPUT FILE ..: prints the packets that libwolfaren-pcap reads of each file, and why it reads no more. Then
 * writes the IPv6 packets of the file to OUTPUT, and prints what that call returns. Its buffer has just the room that a
 * packet may need, so that one is kept now and then.
 */
#include <fcntl.h>
#include <stdio.h>
#include <stdlib.h>
#include <string.h>
#include <unistd.h>

#include "wolfaren-pcap.h"

enum { PACKETS = 3 };

static void print_packet(const struct wolfaren_pcap_packet *packet, const uint8_t *bytes)
{
    unsigned long sum = 0;
    for (size_t i = 0; i < packet->len; i++) sum += (i + 1) * bytes[packet->offset + i];
    printf("%llu ", (unsigned long long)packet->number);
    if (packet->has_time)
        printf("%llu ", 1000000000ull * (unsigned long long)packet->seconds + (unsigned long long)packet->nanoseconds);
    printf("%s %lu %lu %zu %zu %lu\n", wolfaren_pcap_link_layer_name(packet->link_type),
           (unsigned long)packet->captured_len, (unsigned long)packet->original_len, packet->ip_offset, packet->len, sum);
}

static void read_packets(const char *path, uint8_t *bytes)
{
    char error[WOLFAREN_PCAP_ERROR_ROOM];
    struct wolfaren_pcap_packet packets[PACKETS];
    struct wolfaren_pcap_reader *reader = wolfaren_pcap_open(path, error);
    size_t count = 0;
    do {
        if (reader) count = wolfaren_pcap_read(reader, packets, PACKETS, bytes, WOLFAREN_PCAP_PACKET_ROOM, error);
        for (size_t i = 0; i < count; i++) print_packet(&packets[i], bytes);
    } while (count > 0);
    printf("%s\n", error);
    wolfaren_pcap_close(reader);
}

static void filter_packets(const char *path, const char *output)
{
    static const char condition[] = "version 6";
    char error[WOLFAREN_PCAP_ERROR_ROOM];
    struct wolfaren_pcap_counts counts;
    int file = open(output, O_WRONLY | O_CREAT | O_TRUNC, 0600);
    int outcome = wolfaren_pcap_filter(condition, strlen(condition), path, file, &counts, error);
    printf("%d %llu %llu %s\n", outcome, (unsigned long long)counts.frames, (unsigned long long)counts.written, error);
    close(file);
}

int main(int count, char **arguments)
{
    uint8_t *bytes = malloc(WOLFAREN_PCAP_PACKET_ROOM);
    if (count < 3 || !bytes) return 2;
    for (int i = 2; i < count; i++) {
        read_packets(arguments[i], bytes);
        filter_packets(arguments[i], arguments[1]);
    }
    free(bytes);
    return 0;
}
