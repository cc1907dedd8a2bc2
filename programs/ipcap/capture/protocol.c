#include "capture/protocol.h"

struct protocol protocol_of(const struct wolfaren_frame *frame)
{
    return (struct protocol){frame->number_kind, frame->number, frame->version};
}

uint32_t vlans_of(const struct wolfaren_frame *frame)
{
    enum { IDENTIFIER_BITS = 12 };
    return (uint32_t)frame->first_vlan << IDENTIFIER_BITS | frame->second_vlan;
}

bool is_supported(int link_type)
{
    struct wolfaren_frame frame;
    return wolfaren_find_ip((uint32_t)link_type, NULL, 0, &frame);
}

bool is_mismatched(const struct protocol *protocol, const uint8_t *packet, size_t len)
{
    unsigned version = len > 0 ? packet[0] >> 4 : 0;
    return (protocol->version == 4 && version == 6) || (protocol->version == 6 && version == 4);
}
