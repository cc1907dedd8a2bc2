#include "capture/link_type.h"

#include <pcap/pcap.h>
#include <stddef.h>

/* The link types in files that differ from libpcap's DLT_ values. They are the same on each system. */
static const struct {
    unsigned number;
    int link_type;
} link_types[] = {{100, DLT_ATM_RFC1483}, {101, DLT_RAW}, {102, DLT_SLIP_BSDOS}, {103, DLT_PPP_BSDOS}};

enum { LINK_TYPES = sizeof link_types / sizeof *link_types };

int link_type_of(unsigned number)
{
    for (size_t i = 0; i < LINK_TYPES; i++)
        if (link_types[i].number == number) return link_types[i].link_type;
    return (int)number;
}

unsigned file_link_type(int link_type)
{
    for (size_t i = 0; i < LINK_TYPES; i++)
        if (link_types[i].link_type == link_type) return link_types[i].number;
    return (unsigned)link_type;
}
