/*
 * count FILE [COND]: prints what wolfaren_pcap_count returns, or with a condition what wolfaren_pcap_filter writes, and the error
 * on standard error.
 */
#include <stdio.h>
#include <string.h>

#include "wolfaren-pcap.h"

int main(int count, char **arguments)
{
    char error[WOLFAREN_PCAP_ERROR_ROOM];
    struct wolfaren_pcap_counts counts;
    if (count != 2 && count != 3) return 2;
    if (count == 3) {
        wolfaren_pcap_filter(arguments[2], strlen(arguments[2]), arguments[1], fileno(stdout), &counts, error);
    } else {
        char *json = wolfaren_pcap_count(arguments[1], error);
        if (json) fputs(json, stdout);
        wolfaren_pcap_free(json);
    }
    fputs(error, stderr);
    return *error != '\0';
}
