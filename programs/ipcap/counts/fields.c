#include "counts/fields.h"

#include <stdio.h>
#include <string.h>

#include "packets/names.h"

#define FIELD(field) #field, offsetof(struct packet_counts, statistics.field)
#define LEN(field) (sizeof((struct wolfaren_statistics *)0)->field / sizeof(uint64_t))

enum { LAYERS = 16 };

_Static_assert(LEN(headers) <= ARRAY_ELEMENTS && LEN(faults) <= ARRAY_ELEMENTS && LEN(faults) % LAYERS == 0,
               "arrays have room, and faults a row of layers for each kind");

static void write_number(size_t number, char name[ELEMENT_NAME_ROOM])
{
    snprintf(name, ELEMENT_NAME_ROOM, "%zu", number);
}

/* Reads a decimal number of at most 5 digits without leading zeros. */
static bool read_number(const char *name, size_t *number)
{
    size_t len = strspn(name, "0123456789");
    if (len == 0 || len > 5 || name[len] != '\0' || (name[0] == '0' && len > 1)) return false;
    *number = 0;
    for (; *name; name++) *number = *number * 10 + (size_t)(*name - '0');
    return true;
}

static void write_chain_bytes(size_t element, char name[ELEMENT_NAME_ROOM])
{
    write_number(wolfaren_least_chain_bytes((uint32_t)element), name);
}

static bool read_chain_bytes(const char *name, size_t *element)
{
    size_t least;
    if (!read_number(name, &least)) return false;
    for (*element = 0; *element < LEN(chain_bytes); ++*element)
        if (wolfaren_least_chain_bytes((uint32_t)*element) == least) return true;
    return false;
}

static void write_layer(size_t layer, char name[ELEMENT_NAME_ROOM])
{
    snprintf(name, ELEMENT_NAME_ROOM, "%s", wolfaren_layer_word((uint8_t)layer));
}

static bool read_layer(const char *name, size_t *layer)
{
    uint8_t found;
    if (!find_layer(name, strlen(name), &found)) return false;
    *layer = found;
    return true;
}

static void write_fault(size_t element, char name[ELEMENT_NAME_ROOM])
{
    snprintf(name, ELEMENT_NAME_ROOM, "%s %s", wolfaren_kind_word((uint8_t)(element / LAYERS)),
             wolfaren_layer_word((uint8_t)(element % LAYERS)));
}

/* Reads the name of a kind, a space, and the name of a layer. */
static bool read_fault(const char *name, size_t *element)
{
    uint8_t kind, layer;
    const char *space = strchr(name, ' ');
    if (!space || !find_kind(name, (size_t)(space - name), &kind)) return false;
    if (!find_layer(space + 1, strlen(space + 1), &layer)) return false;
    *element = (size_t)kind * LAYERS + layer;
    return true;
}

const struct scalar scalars[SCALARS] = {
    {FIELD(other_frames), "frames without an IP packet"},
    {FIELD(truncated_frames), "frames truncated by the snap length"},
    [PACKETS] = {FIELD(packets), "IP packets"},
    {FIELD(without_header), "packets without an IP header"},
    {FIELD(ipv4), "IPv4 packets"},
    {FIELD(ipv6), "IPv6 packets"},
    {FIELD(at_payload), "headers that end at the payload"},
    {FIELD(at_later_fragment), "headers that end at the payload of a later fragment"},
    {FIELD(at_truncated_header), "headers that end at a truncated header"},
    {FIELD(at_fault), "headers that end at a fault"},
    {FIELD(atomic_fragments), "atomic fragments"},
    {FIELD(first_fragments), "first fragments"},
    {FIELD(middle_fragments), "middle fragments"},
    {FIELD(last_fragments), "last fragments"},
    {FIELD(incomplete), "packets with missing bytes"},
    {FIELD(payload_bytes), "payload bytes"},
    [MISMATCHED] = {"mismatched", offsetof(struct packet_counts, mismatched),
                    "IPv4 packets announced as IPv6, or IPv6 as IPv4"},
};

const struct array arrays[ARRAYS] = {
    {FIELD(chain_headers), LEN(chain_headers), "headers of a chain", write_number, read_number, false},
    {FIELD(chain_bytes), LEN(chain_bytes), "least bytes of a chain", write_chain_bytes, read_chain_bytes, false},
    {FIELD(headers), LEN(headers), "extension headers", write_number, read_number, true},
    {FIELD(payload_numbers), LEN(payload_numbers), "payloads", write_number, read_number, true},
    {FIELD(later_fragment_numbers), LEN(later_fragment_numbers), "payloads of later fragments", write_number,
     read_number, true},
    {FIELD(truncated_headers), LEN(truncated_headers), "truncated headers", write_layer, read_layer, false},
    {FIELD(faults), LEN(faults), "faults", write_fault, read_fault, false},
};

uint64_t *scalar_in(struct packet_counts *counts, const struct scalar *scalar)
{
    return (uint64_t *)(void *)((char *)counts + scalar->offset);
}

uint64_t *array_in(struct packet_counts *counts, const struct array *array)
{
    return (uint64_t *)(void *)((char *)counts + array->offset);
}
