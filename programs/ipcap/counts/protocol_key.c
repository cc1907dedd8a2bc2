#include "counts/protocol_key.h"

#include <stdio.h>
#include <stdlib.h>
#include <string.h>

/* The bytes of a key: the kind, and the number, most significant byte first. */
enum { KIND_AT, NUMBER_AT, KEY_USED = NUMBER_AT + 4 };

static const struct {
    const char *format;
    uint32_t most; /* the largest number of the kind */
} kinds[] = {
    [WOLFAREN_ETHERTYPE] = {"EtherType 0x%04x", 0xffff}, [WOLFAREN_LLC] = {"LLC 0x%02x", 0xff},
    [WOLFAREN_PPP] = {"PPP 0x%04x", 0xffff},             [WOLFAREN_NLPID] = {"NLPID 0x%02x", 0xff},
    [WOLFAREN_FAMILY] = {"family %u", UINT32_MAX},      [WOLFAREN_IEEE80211] = {"802.11 0x%02x", 0xff},
};

bool protocol_key(const struct protocol *protocol, struct key *key)
{
    uint32_t number = protocol->number;
    key->len = KEY_USED;
    key->bytes[KIND_AT] = (uint8_t)protocol->kind;
    for (size_t at = KEY_USED; at > NUMBER_AT; number >>= 8) key->bytes[--at] = (uint8_t)(number & 0xff);
    return protocol->kind != WOLFAREN_NO_NUMBER;
}

void write_protocol(const uint8_t *key, size_t len, char text[CHAIN_TEXT_ROOM])
{
    uint32_t number = 0;
    for (size_t at = NUMBER_AT; at < len; at++) number = number << 8 | key[at];
    snprintf(text, CHAIN_TEXT_ROOM, kinds[key[KIND_AT]].format, number);
}

bool read_protocol(const char *text, struct key *key)
{
    char written[CHAIN_TEXT_ROOM];
    const char *space = strrchr(text, ' ');
    if (!space) return false;
    unsigned long number = strtoul(space + 1, NULL, 0);
    for (unsigned kind = WOLFAREN_ETHERTYPE; kind <= WOLFAREN_IEEE80211; kind++) {
        if (number > kinds[kind].most) continue;
        protocol_key(&(struct protocol){kind, (uint32_t)number, 0}, key);
        write_protocol(key->bytes, key->len, written);
        if (strcmp(text, written) == 0) return true;
    }
    return false;
}

int compare_protocols(const void *left, const void *right)
{
    const struct wolfaren_chain_count *one = left, *other = right;
    if (one->count != other->count) return compare_counts(one->count, other->count);
    return memcmp(one->key, other->key, KEY_USED);
}
