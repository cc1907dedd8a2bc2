#include "capture/swap.h"

#include <pcap/pcap.h>
#include <string.h>

static void swap_bytes(uint8_t *bytes, size_t i, size_t j)
{
    uint8_t byte = bytes[i];
    bytes[i] = bytes[j];
    bytes[j] = byte;
}

/* Swaps the lengths and types of a netfilter log's attributes, each of which is padded to a multiple of 4 bytes. */
static void swap_attributes(uint8_t *frame, size_t len)
{
    enum { VERSION_AT = 1, HEAD_LEN = 4, LEAST_LEN = 4 };
    size_t at = HEAD_LEN, attribute_len = LEAST_LEN;
    if (len < HEAD_LEN || frame[VERSION_AT] != 0) return;
    while (attribute_len >= LEAST_LEN && len - at >= LEAST_LEN) {
        uint16_t stated;
        swap_bytes(frame + at, 0, 1);
        swap_bytes(frame + at, 2, 3);
        memcpy(&stated, frame + at, sizeof stated);
        attribute_len = ((size_t)stated + 3) / 4 * 4;
        at = attribute_len > len - at ? len : at + attribute_len;
    }
}

/* Swaps the identifier of a CAN frame, if that is what a cooked frame has. */
static void swap_can_identifier(uint8_t *frame, size_t len)
{
    enum { PROTOCOL_AT = 14, HEAD_LEN = 16, IDENTIFIER_LEN = 4, CAN = 0x0c, CAN_FD = 0x0d };
    if (len < HEAD_LEN + IDENTIFIER_LEN || frame[PROTOCOL_AT] != 0) return;
    if (frame[PROTOCOL_AT + 1] != CAN && frame[PROTOCOL_AT + 1] != CAN_FD) return;
    swap_bytes(frame + HEAD_LEN, 0, 3);
    swap_bytes(frame + HEAD_LEN, 1, 2);
}

void swap_header(int link_type, uint8_t *frame, size_t len)
{
    if (link_type == DLT_NFLOG) swap_attributes(frame, len);
    if (link_type == DLT_LINUX_SLL) swap_can_identifier(frame, len);
}
