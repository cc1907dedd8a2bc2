#include "counts/chain_text.h"

#include <string.h>

#include "counts/key_counts.h"
#include "output/text.h"
#include "packets/names.h"

/* The bytes of a key after its path: IP version, the number after the headers, the end, and the header numbers. */
enum { VERSION_AT, NEXT_AT, END_AT, NUMBERS_AT, KEY_HEADERS = WOLFAREN_CHAIN_KEY_LEN - NUMBERS_AT };

_Static_assert((int)KEY_HEADERS <= (int)STORED_HEADERS, "the headers of a key must be stored");

_Static_assert((int)CHAIN_WHOLE == (int)WOLFAREN_CHAIN_WHOLE && (int)CHAIN_FAULTY == (int)WOLFAREN_CHAIN_FAULTY
                   && (int)CHAIN_TRUNCATED == (int)WOLFAREN_CHAIN_TRUNCATED,
               "ends must have the codes of the library");

/* The first byte of an outer packet in a path has its IP version and its tunnel, in four bits each. */
enum { VERSION_SHIFT = 4, TUNNEL_MASK = 0x0f };

_Static_assert((int)TUNNEL_GENEVE <= (int)TUNNEL_MASK, "the number of a tunnel must fit");

/* The longest parts of a text: `IPv6 255,.. VXLAN > ` for each tunnel, and `IPv6 255,.. -> 255 truncated`. */
enum { NUMBER_TEXT = 4, TUNNEL_TEXT = 14, CHAIN_TEXT = 21 };

_Static_assert((KEY_HEADERS - PATH_TUNNELS * PATH_NUMBERS_AT) * NUMBER_TEXT + PATH_TUNNELS * TUNNEL_TEXT + CHAIN_TEXT
                   < CHAIN_TEXT_ROOM,
               "the text of a chain must fit");

static const char *const end_words[] = {
    [CHAIN_WHOLE] = "", [CHAIN_FAULTY] = " fault", [CHAIN_TRUNCATED] = " truncated"};

/* Adds an outer packet to a path. Returns where the numbers of its `count` headers belong. */
static uint8_t *add_to_path(struct path *path, unsigned version, enum tunnel tunnel, size_t count)
{
    uint8_t *packet = &path->bytes[path->len];
    packet[PATH_KIND_AT] = (uint8_t)(version << VERSION_SHIFT | tunnel);
    packet[PATH_COUNT_AT] = (uint8_t)count;
    path->tunnels++;
    path->len += PATH_NUMBERS_AT + count;
    return &packet[PATH_NUMBERS_AT];
}

/* Of a packet with more headers than are stored, those are enough: with their numbers, a path fits into no key. */
void extend_path(struct path *path, const struct parts *parts, enum tunnel tunnel)
{
    const struct wolfaren_dissection *packet = &parts->packet;
    size_t count = packet->headers < STORED_HEADERS ? packet->headers : STORED_HEADERS;
    uint8_t *numbers = add_to_path(path, packet->version, tunnel, count);
    for (size_t i = 0; i < count; i++) numbers[i] = parts->headers[i].number;
}

/* What is in a key: a path, and the chain after it. */
struct chain {
    const uint8_t *path;
    size_t path_len;
    const uint8_t *bytes; /* from the IP version on */
    size_t headers;
};

static struct chain chain_in(const uint8_t *key, size_t len)
{
    size_t at = 0;
    while (key[at] > 6) at += (size_t)PATH_NUMBERS_AT + key[at + PATH_COUNT_AT];
    return (struct chain){key, at, key + at, len - at - NUMBERS_AT};
}

/* Begins a key with a path and what comes before the header numbers. Returns where these belong, or null without room for them. */
static uint8_t *begin_key(struct key *key, const struct path *path, uint8_t version, uint8_t next, uint8_t end, size_t count)
{
    if (path->len > KEY_HEADERS || count > KEY_HEADERS - path->len) return NULL;
    uint8_t *chain = key->bytes + path->len;
    memcpy(key->bytes, path->bytes, path->len);
    chain[VERSION_AT] = version;
    chain[NEXT_AT] = next;
    chain[END_AT] = end;
    key->len = path->len + NUMBERS_AT + count;
    return &chain[NUMBERS_AT];
}

/* Appends the IP version and the header numbers of a packet to a text. Returns its new end. */
static char *append_headers(char *end, unsigned version, const uint8_t *numbers, size_t count)
{
    end = append_number(append_text(end, "IPv"), version);
    *end++ = ' ';
    for (size_t i = 0; i < count; i++) {
        end = append_number(end, numbers[i]);
        *end++ = i + 1 < count ? ',' : ' ';
    }
    return end;
}

/* Writes the outer packets of a path. Returns the end of the text. */
static char *write_path(const uint8_t *path, size_t len, char text[CHAIN_TEXT_ROOM])
{
    char *end = text;
    for (size_t at = 0; at < len; at += (size_t)PATH_NUMBERS_AT + path[at + PATH_COUNT_AT]) {
        const uint8_t *packet = &path[at];
        const char *name = tunnel_name(packet[PATH_KIND_AT] & TUNNEL_MASK);
        unsigned version = packet[PATH_KIND_AT] >> VERSION_SHIFT;
        end = append_headers(end, version, &packet[PATH_NUMBERS_AT], packet[PATH_COUNT_AT]);
        end = append_text(append_text(end, name), *name ? " > " : "> ");
    }
    return end;
}

void write_key(const uint8_t *key, size_t len, char text[CHAIN_TEXT_ROOM])
{
    struct chain chain = chain_in(key, len);
    char *end = write_path(chain.path, chain.path_len, text);
    end = append_text(append_headers(end, chain.bytes[VERSION_AT], &chain.bytes[NUMBERS_AT], chain.headers), "-> ");
    end = append_text(append_number(end, chain.bytes[NEXT_AT]), end_words[chain.bytes[END_AT]]);
    *end = '\0';
}

bool write_chain(const struct path *path, const struct parts *parts, char text[CHAIN_TEXT_ROOM])
{
    const struct wolfaren_dissection *packet = &parts->packet;
    struct key key;
    uint8_t *numbers = begin_key(&key, path, (uint8_t)packet->version, (uint8_t)packet->payload_number,
                                 (uint8_t)end_of_chain(parts), packet->headers);
    if (!numbers) return false;
    for (size_t i = 0; i < packet->headers; i++) numbers[i] = parts->headers[i].number;
    write_key(key.bytes, key.len, text);
    return true;
}

/* Advances `text` past the words if it begins with them. */
static bool take_words(const char **text, const char *words)
{
    size_t len = strlen(words);
    if (strncmp(*text, words, len) != 0) return false;
    *text += len;
    return true;
}

/* The IP version and the header numbers of a packet. */
struct headers {
    uint8_t version;
    uint8_t count;
    uint8_t numbers[KEY_HEADERS];
};

/* Reads header numbers, if there are any, and the space after them. */
static bool read_numbers(const char **text, struct headers *headers)
{
    headers->count = 0;
    if (**text < '0' || **text > '9') return true;
    do {
        if (headers->count == KEY_HEADERS || !read_byte_number(text, &headers->numbers[headers->count])) return false;
        headers->count++;
    } while (take_words(text, ","));
    return take_words(text, " ");
}

static bool read_headers(const char **text, struct headers *headers)
{
    if (!take_words(text, "IPv") || !read_byte_number(text, &headers->version)) return false;
    if (headers->version != 4 && headers->version != 6) return false;
    return take_words(text, " ") && read_numbers(text, headers);
}

/* Reads the name of a tunnel and the sign after it. */
static bool read_tunnel(const char **text, enum tunnel *tunnel)
{
    for (*tunnel = 0; *tunnel <= TUNNEL_GENEVE; ++*tunnel) {
        const char *at = *text, *name = tunnel_name(*tunnel);
        if (!take_words(&at, name) || !take_words(&at, *name ? " > " : "> ")) continue;
        *text = at;
        return true;
    }
    return false;
}

/* Reads the outer packets into a path, and the last packet up to the arrow. */
static bool read_path(const char **text, struct path *path, struct headers *headers)
{
    enum tunnel tunnel;
    while (read_headers(text, headers)) {
        if (take_words(text, "-> ")) return true;
        if (!read_tunnel(text, &tunnel)) return false;
        if (path->tunnels == PATH_TUNNELS) return false;
        memcpy(add_to_path(path, headers->version, tunnel, headers->count), headers->numbers, headers->count);
    }
    return false;
}

/* Reads the word after the number that follows a chain, up to the end of the text. */
static bool read_end(const char *text, uint8_t *end)
{
    for (*end = CHAIN_WHOLE; *end <= CHAIN_TRUNCATED; ++*end)
        if (strcmp(text, end_words[*end]) == 0) return true;
    return false;
}

static bool read_key(const char *text, struct key *key, struct path *path)
{
    struct headers headers;
    uint8_t next, end;
    begin_path(path);
    if (!read_path(&text, path, &headers) || !read_byte_number(&text, &next) || !read_end(text, &end)) return false;
    uint8_t *numbers = begin_key(key, path, headers.version, next, end, headers.count);
    if (numbers) memcpy(numbers, headers.numbers, headers.count);
    return numbers;
}

bool read_chain(const char *text, struct key *key)
{
    struct path path;
    return read_key(text, key, &path) && path.tunnels == 0;
}

bool read_inner_chain(const char *text, struct key *key)
{
    struct path path;
    return read_key(text, key, &path) && path.tunnels > 0;
}

uint8_t version_of(const struct wolfaren_chain_count *chain)
{
    return chain_in(chain->key, chain->len).bytes[VERSION_AT];
}

/* Compares bytes, and of the same bytes their number. */
static int compare_bytes(const uint8_t *left, size_t left_len, const uint8_t *right, size_t right_len)
{
    int compared = memcmp(left, right, left_len < right_len ? left_len : right_len);
    return compared != 0 ? compared : left_len < right_len ? -1 : left_len > right_len;
}

/* Chains are in the order of version, number of headers, number after them, end, numbers of the headers, and path. */
int compare_chains(const void *left, const void *right)
{
    const struct wolfaren_chain_count *one = left, *other = right;
    struct chain first = chain_in(one->key, one->len), second = chain_in(other->key, other->len);
    if (one->count != other->count) return compare_counts(one->count, other->count);
    if (first.bytes[VERSION_AT] != second.bytes[VERSION_AT]) return first.bytes[VERSION_AT] - second.bytes[VERSION_AT];
    if (first.headers != second.headers) return first.headers < second.headers ? -1 : 1;
    int compared = memcmp(&first.bytes[NEXT_AT], &second.bytes[NEXT_AT], NUMBERS_AT - NEXT_AT + first.headers);
    return compared != 0 ? compared : compare_bytes(first.path, first.path_len, second.path, second.path_len);
}
