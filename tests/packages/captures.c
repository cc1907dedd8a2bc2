/* Prints why there is no capture at a path, once for each call that opens one. */
#include <wolfaren-pcap.h>
#include <stdio.h>

int main(void)
{
    char error[WOLFAREN_PCAP_ERROR_ROOM];
    char *json = wolfaren_pcap_count("/nonexistent", error);
    puts(json ? json : error);
    wolfaren_pcap_free(json);
    struct wolfaren_pcap_reader *reader = wolfaren_pcap_open("/nonexistent", error);
    puts(error);
    wolfaren_pcap_close(reader);
    return 0;
}
