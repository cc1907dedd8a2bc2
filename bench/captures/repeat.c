/* repeat OUTPUT BYTES FILE..: writes the packets of all Ethernet captures, again and again, until so many are written. */
#include <pcap/pcap.h>
#include <stdint.h>
#include <stdio.h>
#include <stdlib.h>

/* Copies the packets of a capture, and returns how many bytes they take in the output. Other link layers are skipped. */
static uint64_t copy(pcap_dumper_t *output, const char *path)
{
    char error[PCAP_ERRBUF_SIZE];
    struct pcap_pkthdr *header;
    const u_char *frame;
    uint64_t written = 0;
    pcap_t *capture = pcap_open_offline(path, error);
    if (!capture) return 0;
    while (pcap_datalink(capture) == DLT_EN10MB && pcap_next_ex(capture, &header, &frame) == 1) {
        pcap_dump((u_char *)output, header, frame);
        written += 16 + header->caplen;
    }
    pcap_close(capture);
    return written;
}

int main(int count, char **arguments)
{
    if (count < 4) return 2;
    pcap_t *form = pcap_open_dead(DLT_EN10MB, 262144);
    pcap_dumper_t *output = form ? pcap_dump_open(form, arguments[1]) : NULL;
    if (!output) return 1;
    uint64_t wanted = strtoull(arguments[2], NULL, 10), written = 0, before;
    do {
        before = written;
        for (int i = 3; i < count && written < wanted; i++) written += copy(output, arguments[i]);
    } while (written < wanted && written > before);
    int is_failed = pcap_dump_flush(output) != 0 || written < wanted;
    pcap_dump_close(output);
    return is_failed;
}
