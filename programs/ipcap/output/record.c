#include "output/record.h"

#include "counts/protocol_key.h"
#include "output/title.h"
#include "packets/address.h"
#include "packets/details.h"

/* What is written of a packet, in this order. Members of the fault are in an object of their own in JSON. */
enum member {
    PACKET, TIME, FRAME_LEN, CAPTURED_LEN, OTHER_PROTOCOL, OTHER_PROTOCOL_NAME, IP_OFFSET, SRC, DST, SRC_PORT, DST_PORT, VERSION,
    BASE_LEN, STATED_LEN, HOP_LIMIT, HEADERS, HEADER_NAMES, CHAIN, PAYLOAD_NUMBER, PAYLOAD_NAME, PAYLOAD_OFFSET, PAYLOAD_LEN,
    MISSING, PADDING, FRAGMENT, FRAGMENT_NAME, IDENTIFICATION, FRAGMENT_OFFSET, END, END_NAME, FAULT_NAME, FAULT_TEXT,
    REQUIRED_LEN, LEN, OFFSET, KIND, KIND_NAME, HEADER, HEADER_NAME, LAYER, LAYER_NAME, LEN_SOURCE, LEN_SOURCE_NAME, VALUE,
    TUNNELS, MEMBERS
};

static const char *const names[MEMBERS] = {
    [PACKET] = "packet", [TIME] = "time", [FRAME_LEN] = "frame_len", [CAPTURED_LEN] = "captured_len",
    [OTHER_PROTOCOL] = "other_protocol", [OTHER_PROTOCOL_NAME] = "other_protocol_name", [IP_OFFSET] = "ip_offset",
    [SRC] = "src", [DST] = "dst", [SRC_PORT] = "src_port",
    [DST_PORT] = "dst_port", [VERSION] = "version", [BASE_LEN] = "base_len", [STATED_LEN] = "stated_len", [HOP_LIMIT] = "hop_limit",
    [HEADERS] = "headers", [HEADER_NAMES] = "header_names", [CHAIN] = "chain", [PAYLOAD_NUMBER] = "payload_number",
    [PAYLOAD_NAME] = "payload_name", [PAYLOAD_OFFSET] = "payload_offset", [PAYLOAD_LEN] = "payload_len", [MISSING] = "missing",
    [PADDING] = "padding", [FRAGMENT] = "fragment", [FRAGMENT_NAME] = "fragment_name", [IDENTIFICATION] = "identification",
    [FRAGMENT_OFFSET] = "fragment_offset", [END] = "end", [END_NAME] = "end_name", [FAULT_NAME] = "name", [FAULT_TEXT] = "text",
    [REQUIRED_LEN] = "required_len", [LEN] = "len", [OFFSET] = "offset", [KIND] = "kind", [KIND_NAME] = "kind_name",
    [HEADER] = "header", [HEADER_NAME] = "header_name", [LAYER] = "layer", [LAYER_NAME] = "layer_name", [LEN_SOURCE] = "len_source",
    [LEN_SOURCE_NAME] = "len_source_name", [VALUE] = "value", [TUNNELS] = "tunnels",
};

static const char *const fragment_names[] = {
    [WOLFAREN_NOT_FRAGMENTED] = "", [WOLFAREN_ATOMIC_FRAGMENT] = "atomic", [WOLFAREN_FIRST_FRAGMENT] = "first",
    [WOLFAREN_MIDDLE_FRAGMENT] = "middle", [WOLFAREN_LAST_FRAGMENT] = "last"};

static const char *const end_names[] = {
    [WOLFAREN_AT_PAYLOAD] = "payload", [WOLFAREN_AT_LATER_FRAGMENT] = "later-fragment",
    [WOLFAREN_AT_TRUNCATED_HEADER] = "truncated-header", [WOLFAREN_AT_FAULT] = "fault"};

static const char *const len_source_names[] = {
    [WOLFAREN_NO_LEN_SOURCE] = "", [WOLFAREN_SLICE] = "capture", [WOLFAREN_IPV4_TOTAL_LENGTH] = "total-length",
    [WOLFAREN_IPV6_PAYLOAD_LENGTH] = "payload-length"};

/* A value of a packet. All zeros are none. */
struct value {
    enum { NO_VALUE, IS_NUMBER, IS_TEXT, IS_TIME, IS_SOURCE, IS_DESTINATION, IS_HEADERS, IS_HEADER_NAMES } kind;
    uint64_t number;
    const char *text;
};

/* The values of a packet, with the memory of their texts. */
struct record {
    const struct capture *capture;
    const struct packet *packet;
    const struct parts *parts;
    struct value values[MEMBERS];
    char chain[CHAIN_TEXT_ROOM];
    char protocol[CHAIN_TEXT_ROOM];
    char fault_name[64];
    char fault[WOLFAREN_TEXT_ROOM];
};

static void set_number(struct record *record, enum member member, uint64_t number)
{
    record->values[member] = (struct value){.kind = IS_NUMBER, .number = number};
}

/* Sets a text, unless it is empty. */
static void set_text(struct record *record, enum member member, const char *text)
{
    if (*text) record->values[member] = (struct value){.kind = IS_TEXT, .text = text};
}

/* Sets a code and the name after it. */
static void set_code(struct record *record, enum member member, uint64_t code, const char *name)
{
    set_number(record, member, code);
    set_text(record, member + 1, name);
}

static void set_frame(struct record *record)
{
    const struct packet *packet = record->packet;
    struct key key;
    set_number(record, PACKET, record->capture->number);
    if (packet->has_time) record->values[TIME].kind = IS_TIME;
    set_number(record, FRAME_LEN, frame_len(packet));
    set_number(record, CAPTURED_LEN, packet->header.caplen);
    if (packet->is_ip || !protocol_key(&packet->protocol, &key)) return;
    write_protocol(key.bytes, key.len, record->protocol);
    set_text(record, OTHER_PROTOCOL, record->protocol);
    const char *name = protocol_name(&packet->protocol);
    if (*name) set_text(record, OTHER_PROTOCOL_NAME, name);
}

static void set_port(struct record *record, enum member member, bool is_destination)
{
    unsigned port;
    if (find_port(record->parts, is_destination, &port)) set_number(record, member, port);
}

/* Sets what the IP header says. */
static void set_base(struct record *record)
{
    enum { TTL_AT = 8, HOP_LIMIT_AT = 7 };
    const struct parts *parts = record->parts;
    const unsigned version = parts->packet.version;
    set_number(record, VERSION, version);
    set_number(record, BASE_LEN, parts->packet.base_len);
    set_number(record, STATED_LEN, parts->packet.stated_len);
    if (version == 0) return;
    record->values[SRC].kind = IS_SOURCE;
    record->values[DST].kind = IS_DESTINATION;
    set_port(record, SRC_PORT, false);
    set_port(record, DST_PORT, true);
    set_number(record, HOP_LIMIT, parts->bytes[version == 4 ? TTL_AT : HOP_LIMIT_AT]);
}

/* Sets the chain, which has no text if it has too many headers for a key. */
static void set_chain(struct record *record, const struct path *path)
{
    static const struct path none;
    record->values[HEADERS].kind = IS_HEADERS;
    record->values[HEADER_NAMES].kind = IS_HEADER_NAMES;
    if (record->parts->packet.version == 0 || !write_chain(path ? path : &none, record->parts, record->chain)) return;
    set_text(record, CHAIN, record->chain);
}

static void set_payload(struct record *record)
{
    const struct wolfaren_dissection *of = &record->parts->packet;
    set_code(record, PAYLOAD_NUMBER, of->payload_number, wolfaren_number_word((uint8_t)of->payload_number));
    set_number(record, PAYLOAD_OFFSET, of->payload_offset);
    set_number(record, PAYLOAD_LEN, of->payload_len);
    set_number(record, MISSING, of->missing);
    set_number(record, PADDING, of->padding);
    set_code(record, END, of->end, end_names[of->end]);
    if (of->fragment == WOLFAREN_NOT_FRAGMENTED) return;
    set_code(record, FRAGMENT, of->fragment, fragment_names[of->fragment]);
    set_number(record, IDENTIFICATION, of->identification);
    set_number(record, FRAGMENT_OFFSET, of->fragment_offset);
}

/* Sets the numbers of a fault, those that its kind has. */
static void set_fault_numbers(struct record *record, const struct wolfaren_fault *fault)
{
    const bool has_lengths = fault->kind == WOLFAREN_TOO_SHORT;
    const bool has_value = fault->kind == WOLFAREN_UNSUPPORTED_IP_VERSION || fault->kind == WOLFAREN_IPV4_HEADER_LENGTH;
    if (has_lengths) set_number(record, REQUIRED_LEN, fault->required_len);
    if (has_lengths) set_number(record, LEN, fault->len);
    if (has_lengths) set_code(record, LEN_SOURCE, fault->len_source, len_source_names[fault->len_source]);
    if (has_value) set_number(record, VALUE, fault->value);
    else set_number(record, OFFSET, fault->offset);
}

/* Sets the fault or the truncated header. */
static void set_fault(struct record *record)
{
    const struct wolfaren_fault *fault = &record->parts->packet.fault;
    if (fault->kind == WOLFAREN_NO_FAULT) return;
    const char *kind = has_fault(record->parts) ? wolfaren_kind_word(fault->kind) : "";
    snprintf(record->fault_name, sizeof record->fault_name, "%s%s%s", kind, *kind ? " " : "", wolfaren_layer_word(faulty_layer(fault)));
    wolfaren_fault_text(fault, record->fault, sizeof record->fault);
    set_text(record, FAULT_NAME, record->fault_name);
    set_text(record, FAULT_TEXT, record->fault);
    set_fault_numbers(record, fault);
    set_code(record, KIND, fault->kind, wolfaren_kind_word(fault->kind));
    if (fault->header != WOLFAREN_NO_LAYER) set_code(record, HEADER, fault->header, wolfaren_layer_word(fault->header));
    if (fault->layer != WOLFAREN_NO_LAYER) set_code(record, LAYER, fault->layer, wolfaren_layer_word(fault->layer));
}

/* Sets all values of a packet. */
static void set_values(struct record *record, const struct path *path)
{
    set_frame(record);
    if (path) set_number(record, TUNNELS, path->tunnels);
    if (!record->packet->is_ip) return;
    set_number(record, IP_OFFSET, record->packet->ip_offset);
    set_base(record);
    set_chain(record, path);
    set_payload(record);
    set_fault(record);
}

/* Writes the numbers or the names of the headers, with spaces between. */
static void put_headers(struct writer *writer, const struct parts *parts, bool has_names)
{
    struct header_walk walk = {0};
    while (visit_header(parts, &walk)) {
        if (walk.visited > 1) put_byte(writer, ' ');
        if (has_names) put_text(writer, wolfaren_number_word(walk.header.number));
        else put_number(writer, walk.header.number);
    }
}

/* Writes a value without quotation marks. */
static void put_value(struct writer *writer, const struct record *record, const struct value *value)
{
    switch (value->kind) {
    case NO_VALUE: break;
    case IS_NUMBER: put_number(writer, value->number); break;
    case IS_TEXT: put_text(writer, value->text); break;
    case IS_TIME: put_time(writer, record->capture, record->packet); break;
    case IS_SOURCE: put_address(writer, record->parts, false); break;
    case IS_DESTINATION: put_address(writer, record->parts, true); break;
    case IS_HEADERS: put_headers(writer, record->parts, false); break;
    case IS_HEADER_NAMES: put_headers(writer, record->parts, true); break;
    }
}

/* Writes the name of a member of an object, after a comma unless it is the first one. */
static void put_name(struct writer *writer, const char *name, bool is_first)
{
    put_text(writer, is_first ? "\"" : ",\"");
    put_text(writer, name);
    put_text(writer, "\":");
}

/* Writes a number after its name, and the name of the number, if it has one, as a member of its own. */
static void put_named_number(struct writer *writer, const char *name, uint8_t number, const char *name_of_name)
{
    put_name(writer, name, false);
    put_number(writer, number);
    if (*wolfaren_number_word(number) == '\0') return;
    put_name(writer, name_of_name, false);
    put_byte(writer, '"');
    put_text(writer, wolfaren_number_word(number));
    put_byte(writer, '"');
}

/* Writes an array with an object for each header. */
static void put_header_objects(struct writer *writer, const struct parts *parts)
{
    struct header_walk walk = {0};
    put_byte(writer, '[');
    while (visit_header(parts, &walk)) {
        put_text(writer, walk.visited > 1 ? ",{" : "{");
        put_name(writer, "offset", true);
        put_number(writer, walk.header.offset);
        put_name(writer, "len", false);
        put_number(writer, walk.header.len);
        put_named_number(writer, "number", walk.header.number, "name");
        put_named_number(writer, "next_header", walk.header.next_header, "next_header_name");
        put_byte(writer, '}');
    }
    put_byte(writer, ']');
}

static bool is_of_fault(enum member member)
{
    return member >= FAULT_NAME && member <= VALUE;
}

/* Writes a value as JSON has it. */
static void put_json(struct writer *writer, const struct record *record, const struct value *value)
{
    const char *mark = value->kind == IS_NUMBER ? "" : "\"";
    put_text(writer, mark);
    put_value(writer, record, value);
    put_text(writer, mark);
}

/* Writes the members from one up to before another, those that have a value. */
static void put_members(struct writer *writer, const struct record *record, enum member first, enum member end)
{
    for (enum member member = first; member < end; member++) {
        const struct value *value = &record->values[member];
        if (value->kind == NO_VALUE || value->kind == IS_HEADER_NAMES) continue;
        put_name(writer, names[member], member == first);
        if (value->kind == IS_HEADERS) put_header_objects(writer, record->parts);
        else put_json(writer, record, value);
    }
}

void put_object(struct writer *writer, const struct capture *capture, const struct packet *packet,
                const struct parts *parts, const struct path *path)
{
    struct record record = {.capture = capture, .packet = packet, .parts = parts};
    set_values(&record, path);
    put_byte(writer, '{');
    put_members(writer, &record, PACKET, FAULT_NAME);
    if (record.values[FAULT_NAME].kind != NO_VALUE) {
        put_name(writer, "fault", false);
        put_byte(writer, '{');
        put_members(writer, &record, FAULT_NAME, TUNNELS);
        put_byte(writer, '}');
    }
    if (path) put_name(writer, names[TUNNELS], false);
    if (path) put_number(writer, path->tunnels);
    put_text(writer, "}\n");
}

void put_names(struct writer *writer, bool has_tunnels)
{
    for (enum member member = PACKET; member < MEMBERS; member++) {
        if (member == TUNNELS && !has_tunnels) continue;
        if (member != PACKET) put_byte(writer, ',');
        if (is_of_fault(member)) put_text(writer, "fault_");
        put_text(writer, names[member]);
    }
    put_byte(writer, '\n');
}

/* Writes a value, in quotation marks if it has a comma (RFC 4180, section 2). */
static void put_cell(struct writer *writer, const struct record *record, const struct value *value)
{
    const char *mark = value->kind == IS_TEXT && strchr(value->text, ',') ? "\"" : "";
    put_text(writer, mark);
    put_value(writer, record, value);
    put_text(writer, mark);
}

void put_row(struct writer *writer, const struct capture *capture, const struct packet *packet,
             const struct parts *parts, const struct path *path)
{
    struct record record = {.capture = capture, .packet = packet, .parts = parts};
    set_values(&record, path);
    for (enum member member = PACKET; member < MEMBERS; member++) {
        if (member == TUNNELS && !path) continue;
        if (member != PACKET) put_byte(writer, ',');
        put_cell(writer, &record, &record.values[member]);
    }
    put_byte(writer, '\n');
}
