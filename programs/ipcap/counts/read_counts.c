#include "counts/read_counts.h"

#include <errno.h>
#include <string.h>

#include "commands/report.h"
#include "counts/chain_text.h"
#include "counts/fields.h"
#include "counts/protocol_key.h"
#include "packets/names.h"

/* A buffer size that is large enough for any text, such as the name of a member, and its terminating null byte. */
enum { NAME_ROOM = CHAIN_TEXT_ROOM };

/* Reports an error at the position of the next byte. */
static bool refuse(const struct json_input *input, const char *words)
{
    complain("standard input: line %llu, column %llu: %s", (unsigned long long)input->line,
             (unsigned long long)input->column, words);
    return false;
}

/* Reports that the next byte isn't what was expected. */
static bool refuse_next(const struct json_input *input, const char *wanted)
{
    char words[96];
    if (input->next == EOF)
        snprintf(words, sizeof words, "expected %s, found the end of the input", wanted);
    else if (input->next > ' ' && input->next < 0x7f)
        snprintf(words, sizeof words, "expected %s, found '%c'", wanted, input->next);
    else
        snprintf(words, sizeof words, "expected %s, found byte 0x%02x", wanted, (unsigned)input->next);
    return refuse(input, words);
}

static void advance(struct json_input *input)
{
    if (input->next == '\n') {
        input->line++;
        input->column = 0;
    }
    input->next = getc(input->file);
    input->column++;
}

void begin_json(struct json_input *input, FILE *file)
{
    *input = (struct json_input){.file = file, .next = ' ', .line = 1, .column = 0};
    advance(input);
}

static void skip_space(struct json_input *input)
{
    while (input->next == ' ' || input->next == '\t' || input->next == '\n' || input->next == '\r') advance(input);
}

bool has_more_json(struct json_input *input)
{
    skip_space(input);
    return input->next != EOF;
}

/* Skips white space and then the given byte. */
static bool take(struct json_input *input, int byte, const char *wanted)
{
    skip_space(input);
    if (input->next != byte) return refuse_next(input, wanted);
    advance(input);
    return true;
}

static bool read_text(struct json_input *input, char text[NAME_ROOM])
{
    size_t len = 0;
    if (!take(input, '"', "a text in quotes")) return false;
    while (input->next != '"') {
        if (input->next < ' ' || input->next > '~') return refuse_next(input, "a printable ASCII character");
        if (len == NAME_ROOM - 1) return refuse(input, "the text is longer than any valid one");
        text[len++] = (char)input->next;
        advance(input);
    }
    text[len] = '\0';
    advance(input);
    return true;
}

/* Skips a text of any length, with any characters that JSON allows. */
static bool skip_text(struct json_input *input)
{
    if (!take(input, '"', "a text in quotes")) return false;
    while (input->next != '"') {
        if (input->next == '\\') advance(input);
        if (input->next < ' ') return refuse_next(input, "a printable character");
        advance(input);
    }
    advance(input);
    return true;
}

static bool read_count(struct json_input *input, uint64_t *count)
{
    skip_space(input);
    if (input->next < '0' || input->next > '9') return refuse_next(input, "a count");
    bool is_zero = input->next == '0';
    *count = 0;
    do {
        unsigned digit = (unsigned)(input->next - '0');
        if (*count > (UINT64_MAX - digit) / 10) return refuse(input, "the count exceeds 18446744073709551615");
        *count = *count * 10 + digit;
        advance(input);
    } while (!is_zero && input->next >= '0' && input->next <= '9');
    return true;
}

/*
 * The state of reading an object. `done` has a bit for each member of the outer object that has been read, and
 * `unknown` is where the first unknown member was, if there was one.
 */
struct reading {
    struct json_input *input;
    struct counts *all;
    struct packet_counts *counts; /* to which the member that is read belongs */
    uint64_t done;
    unsigned minor; /* of the version */
    struct json_input unknown;
    uint64_t *elements; /* of the array that is read */
    const struct array *array;
};

typedef bool (*member_reader)(struct reading *reading, const char *name);

/* Reads an object. Calls `read_member` for the value of each member. */
static bool read_object(struct reading *reading, member_reader read_member)
{
    struct json_input *input = reading->input;
    char name[NAME_ROOM];
    if (!take(input, '{', "'{'")) return false;
    skip_space(input);
    if (input->next == '}') return take(input, '}', "'}'");
    do {
        if (!read_text(input, name) || !take(input, ':', "':'") || !read_member(reading, name)) return false;
        skip_space(input);
    } while (input->next == ',' && take(input, ',', "','"));
    return take(input, '}', "',' or '}'");
}

/* Reads a count in a table. It must be above 0, since a table lists only what was seen. */
static bool read_table_count(struct reading *reading, uint64_t *count)
{
    return read_count(reading->input, count)
        && (*count > 0 || refuse(reading->input, "a count in a table is 0"));
}

static bool refuse_for_memory(void)
{
    complain_of_memory();
    return false;
}

/* Reads a count in an array into its place, which is 0 unless the name is a duplicate. */
static bool read_into(struct reading *reading, uint64_t *place)
{
    if (*place > 0) return refuse(reading->input, "duplicate name in a table");
    return read_table_count(reading, place);
}

/* Reads the count of all keys that have none of their own, unless there was one before. */
static bool read_other(struct reading *reading, struct key_counts *counts)
{
    uint64_t count = count_of_others(counts);
    if (!read_into(reading, &count)) return false;
    return count_as_other(counts, count) || refuse_for_memory();
}

static bool has_key(const struct key_counts *counts, const struct key *key)
{
    for (size_t i = 0; i < number_of_keys(counts); i++)
        if (key_at(counts, i)->len == key->len && memcmp(key_at(counts, i)->key, key->bytes, key->len) == 0) return true;
    return false;
}

/* Reads the count of a key, which must be a new one. */
static bool read_entry(struct reading *reading, struct key_counts *counts, const struct key *key)
{
    uint64_t count;
    size_t before = number_of_keys(counts);
    if (!count_key(counts, key->bytes, key->len, 0)) return refuse_for_memory();
    if (number_of_keys(counts) == before)
        return refuse(reading->input, has_key(counts, key) ? "duplicate name in a table" : "the table has too many names");
    if (!read_table_count(reading, &count)) return false;
    return count_key(counts, key->bytes, key->len, count) || refuse_for_memory();
}

/* Reads a member of a table, whose names `read_key` parses. `refusal` is the error for any other name. */
static bool read_table_member(struct reading *reading, const char *name, struct key_counts *counts,
                              bool (*read_key)(const char *text, struct key *key), const char *refusal)
{
    struct key key;
    if (strcmp(name, "other") == 0) return read_other(reading, counts);
    if (!read_key(name, &key)) return refuse(reading->input, refusal);
    return read_entry(reading, counts, &key);
}

static bool read_chain_member(struct reading *reading, const char *name)
{
    return read_table_member(reading, name, &reading->counts->chains, read_chain, "the name is not a chain");
}

static bool read_inner_chain_member(struct reading *reading, const char *name)
{
    return read_table_member(reading, name, &reading->counts->chains, read_inner_chain,
                             "the name is not a chain in a tunnel");
}

static bool read_protocol_member(struct reading *reading, const char *name)
{
    return read_table_member(reading, name, &reading->counts->protocols, read_protocol, "the name is not a protocol");
}

static bool read_element(struct reading *reading, const char *name)
{
    size_t element;
    char words[64];
    if (reading->array->read_name(name, &element) && element < reading->array->len)
        return read_into(reading, &reading->elements[element]);
    snprintf(words, sizeof words, "the name is not in \"%s\"", reading->array->name);
    return refuse(reading->input, words);
}

static bool read_array(struct reading *reading, const struct array *array)
{
    reading->array = array;
    reading->elements = array_in(reading->counts, array);
    return read_object(reading, read_element);
}

/* Reads a text such as "1.0": the version, whose major number must be ours. */
static bool read_version(struct reading *reading)
{
    char text[NAME_ROOM];
    const char *at = text;
    uint8_t major, minor;
    if (!read_text(reading->input, text)) return false;
    if (!read_byte_number(&at, &major) || *at++ != '.' || !read_byte_number(&at, &minor) || *at)
        return refuse(reading->input, "the version is not two numbers");
    if (major != FORMAT_MAJOR) return refuse(reading->input, "the version has another major number");
    reading->minor = minor;
    return true;
}

static bool skip_count(struct reading *reading, const char *name)
{
    uint64_t count;
    (void)name;
    return read_count(reading->input, &count);
}

/* Skips the value of an unknown member: a count, a text, or an object of counts. */
static bool skip_member(struct reading *reading)
{
    char text[NAME_ROOM];
    if (!reading->unknown.file) reading->unknown = *reading->input;
    skip_space(reading->input);
    if (reading->input->next == '{') return read_object(reading, skip_count);
    return reading->input->next == '"' ? read_text(reading->input, text) : skip_count(reading, NULL);
}

/*
 * The members of the outer object: the version, the name of the file, the single counts, the tables, and the arrays, and
 * then the counts, tables and arrays of packets in tunnels.
 */
enum {
    VERSION_AT,
    FILE_AT,
    SCALARS_AT,
    CHAINS_AT = SCALARS_AT + SCALARS,
    PROTOCOLS_AT,
    ARRAYS_AT,
    INNER_AT = ARRAYS_AT + ARRAYS,
    MEMBERS = INNER_AT + INNER_AT - SCALARS_AT
};

_Static_assert(MEMBERS < 64, "each member has a bit in `done`");

/* Returns a set of one member. */
static uint64_t bit(unsigned member)
{
    return (uint64_t)1 << member;
}

/* The set of the members of packets in tunnels. */
static const uint64_t inner_members = ((uint64_t)1 << MEMBERS) - ((uint64_t)1 << INNER_AT);

/* The last minor version without mismatched packets, and the set of the members that count these. */
enum { LAST_WITHOUT_MISMATCHED = 3 };
static const uint64_t mismatched_members = (uint64_t)1 << (SCALARS_AT + MISMATCHED) | (uint64_t)1 << (INNER_AT + MISMATCHED);

/* Returns the member with the same name, except for the prefix, that isn't of packets in tunnels. */
static unsigned without_prefix(unsigned member)
{
    return member < INNER_AT ? member : member - INNER_AT + SCALARS_AT;
}

/* Returns the name of a member, without the prefix of those of packets in tunnels. */
static const char *member_name(unsigned member)
{
    member = without_prefix(member);
    if (member == VERSION_AT) return "version";
    if (member == FILE_AT) return "file";
    if (member == CHAINS_AT) return "chains";
    if (member == PROTOCOLS_AT) return "other_protocols";
    return member < CHAINS_AT ? scalars[member - SCALARS_AT].name : arrays[member - ARRAYS_AT].name;
}

static const char *member_prefix(unsigned member)
{
    return member < INNER_AT ? "" : INNER_PREFIX;
}

static bool has_name(unsigned member, const char *name)
{
    size_t len = strlen(member_prefix(member));
    return strncmp(name, member_prefix(member), len) == 0 && strcmp(name + len, member_name(member)) == 0;
}

static bool read_value(struct reading *reading, unsigned member)
{
    member_reader read_chains = member < INNER_AT ? read_chain_member : read_inner_chain_member;
    reading->counts = member < INNER_AT ? &reading->all->outer : &reading->all->inner;
    member = without_prefix(member);
    if (member == VERSION_AT) return read_version(reading);
    if (member == FILE_AT) return skip_text(reading->input);
    if (member == CHAINS_AT) return read_object(reading, read_chains);
    if (member == PROTOCOLS_AT) return read_object(reading, read_protocol_member);
    if (member >= ARRAYS_AT) return read_array(reading, &arrays[member - ARRAYS_AT]);
    return read_count(reading->input, scalar_in(reading->counts, &scalars[member - SCALARS_AT]));
}

static bool read_outer_member(struct reading *reading, const char *name)
{
    for (unsigned member = 0; member < MEMBERS; member++) {
        if (!has_name(member, name)) continue;
        if (reading->done & bit(member)) return refuse(reading->input, "duplicate name in the object");
        reading->done |= bit(member);
        return read_value(reading, member);
    }
    return skip_member(reading);
}

/*
 * Adds members that may be left out. Version 1.0 has no table of protocols: all frames without an IP packet are then of
 * other protocols. Up to version 1.3, mismatched packets aren't counted. Only statistics of a single file have its name,
 * and those of packets in tunnels have all members or none. Returns false if memory runs out.
 */
static bool add_members(struct reading *reading)
{
    struct counts *all = reading->all;
    all->has_inner = reading->done & inner_members;
    reading->done |= bit(FILE_AT) | (all->has_inner ? 0 : inner_members);
    if (reading->minor <= LAST_WITHOUT_MISMATCHED) reading->done |= mismatched_members;
    if (reading->minor > 0 || reading->done & bit(PROTOCOLS_AT)) return true;
    reading->done |= bit(PROTOCOLS_AT);
    return count_as_other(&all->outer.protocols, all->outer.statistics.other_frames) || refuse_for_memory();
}

bool read_json(struct json_input *input, struct counts *counts)
{
    struct reading reading = {.input = input, .all = counts};
    if (!read_object(&reading, read_outer_member) || !add_members(&reading)) return false;
    for (unsigned member = 0; member < MEMBERS; member++) {
        char words[64];
        if (reading.done & bit(member)) continue;
        snprintf(words, sizeof words, "the object has no \"%s%s\"", member_prefix(member), member_name(member));
        return refuse(input, words);
    }
    if (reading.unknown.file && reading.minor <= FORMAT_MINOR) return refuse(&reading.unknown, "unknown member name");
    return do_add_up(counts) || refuse(input, "the counts don't add up");
}
