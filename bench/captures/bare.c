/* bare FILE: prints how many packets a capture has. Only libpcap's own loop, for comparison. */
#include <pcap/pcap.h>
#include <stdio.h>

int main(int count, char **arguments)
{
    char error[PCAP_ERRBUF_SIZE];
    struct pcap_pkthdr *header;
    const u_char *frame;
    unsigned long long packets = 0;
    pcap_t *capture = count == 2 ? pcap_open_offline(arguments[1], error) : NULL;
    if (!capture) return 1;
    while (pcap_next_ex(capture, &header, &frame) == 1) packets++;
    pcap_close(capture);
    printf("%llu\n", packets);
    return 0;
}
