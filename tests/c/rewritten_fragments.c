/*
 * Tests fragments of rewritten packets against the rewritten whole packet. Makes random packets of IPv4 and IPv6, fragments them as
 * RFC 791, section 3.2, and RFC 8200, section 4.5, require, rewrites each packet and each of its fragments by the same call, and joins the
 * rewritten fragments in a random order, some of them repeated. What is written is compared with packets that are built here with
 * the change, and each refusal with the reason in wolfaren.h.
 *
 * usage: PROGRAM [COUNT]
 *
 * COUNT is the number of packets. The environment's SEED is that of the random numbers. Prints how many packets had which outcome.
 *
 * A joined packet has no fragment header. Its base header and the headers before the fragment header are those of the first
 * fragment, with the length and the next header of the whole packet, and in IPv4 its flags and checksum.
 */
#include "wolfaren.h"

#include <stdio.h>
#include <stdlib.h>
#include <string.h>

enum { MOST_HEADERS = 8, MOST_HEADER_LEN = 72, MOST_BASE_LEN = 60, MOST_PIECES = 6, MOST_LEN = 65535, UDP = 17, SLOTS = 4 };
enum { ROOM = WOLFAREN_WHOLE_PACKET_ROOM + MOST_HEADER_LEN };

/* An extension header. Its next header field doesn't matter. */
struct header {
    uint8_t number;
    size_t len;
    uint8_t bytes[MOST_HEADER_LEN];
};

struct chain {
    struct header headers[MOST_HEADERS];
    size_t count;
};

struct base {
    uint8_t bytes[MOST_BASE_LEN];
    size_t len;
};

/* A packet or a fragment: its base header, extension headers, and the bytes after them, with their number. */
struct packet {
    struct base base;
    struct chain chain;
    uint8_t number;
    const uint8_t *data;
    size_t len;
};

/* A fragment of a packet, and the extension headers with which its bytes begin, if it is the first one. */
struct piece {
    struct packet packet;
    struct chain after;
    bool is_first;
};

enum call { WITHOUT, WITH, CLEARED };

/* What is changed: headers of a number are left out, or one is added before the header with this index. */
struct change {
    enum call call;
    bool may_be_invalid;
    uint8_t number;
    size_t index;
    struct header added;
};

/* What became of a packet and its fragments. */
enum outcome { JOINED, ALIKE, IN_FRAGMENTED, OF_FRAGMENTS, LATER_IPV4, HIDDEN, COVERED, TOO_LONG, OUTCOMES };

static const char *const outcome_texts[OUTCOMES] = {
    "all fragments rewritten, and joined to the rewritten packet",
    "packet and fragments refused for one reason",
    "refused in the first fragment, since the change is in the part that is fragmented",
    "refused in fragments, whose fragment header would be left out",
    "refused in later fragments of IPv4",
    "refused, except in later fragments, which don't show the authentication header",
    "refused only in fragments: an authentication header covers the fragment header after it",
    "too long with the change, and not joined",
};

static uint64_t state = 1;
static struct wolfaren_defragmenter *defragmenter;
static unsigned long made, counts[OUTCOMES];

static void expect(bool holds, const char *what)
{
    if (holds) return;
    fprintf(stderr, "rewritten_fragments: packet %lu: failed: %s\n", made, what);
    exit(1);
}

/* Returns a random number below a bound (SplitMix64). */
static size_t draw(size_t bound)
{
    uint64_t word = state += 0x9e3779b97f4a7c15;
    word = (word ^ word >> 30) * 0xbf58476d1ce4e5b9;
    word = (word ^ word >> 27) * 0x94d049bb133111eb;
    return (size_t)((word ^ word >> 31) >> 16) % bound;
}

static void draw_bytes(uint8_t *bytes, size_t len)
{
    for (size_t i = 0; i < len; i++) bytes[i] = (uint8_t)draw(256);
}

/* Stores a number of two bytes in network byte order. */
static void put_word(uint8_t *place, size_t word)
{
    place[0] = (uint8_t)(word >> 8);
    place[1] = (uint8_t)word;
}

static bool is_ipv4(const struct base *base)
{
    return base->bytes[0] >> 4 == 4;
}

/* The checksum of an IPv4 header whose own is 0 (RFC 1071). */
static uint16_t checksum_of(const uint8_t *bytes, size_t len)
{
    uint32_t sum = 0;
    for (size_t i = 0; i < len; i += 2) sum += (uint32_t)bytes[i] << 8 | bytes[i + 1];
    while (sum > 0xffff) sum = (sum & 0xffff) + (sum >> 16);
    return (uint16_t)~sum;
}

/* The number of the header with this index, or of what follows the headers. */
static uint8_t number_at(const struct chain *chain, size_t index, uint8_t number)
{
    return index < chain->count ? chain->headers[index].number : number;
}

static size_t put_chain(uint8_t *place, const struct chain *chain, uint8_t number)
{
    size_t len = 0;
    for (size_t i = 0; i < chain->count; i++) {
        memcpy(place + len, chain->headers[i].bytes, chain->headers[i].len);
        place[len] = number_at(chain, i + 1, number);
        len += chain->headers[i].len;
    }
    return len;
}

static size_t chain_len(const struct chain *chain)
{
    size_t len = 0;
    for (size_t i = 0; i < chain->count; i++) len += chain->headers[i].len;
    return len;
}

/* Whether the length field of the base header can state the length. */
static bool fits(const struct packet *packet)
{
    return (is_ipv4(&packet->base) ? packet->base.len : 0) + chain_len(&packet->chain) + packet->len <= MOST_LEN;
}

/* Writes a packet (RFC 791, section 3.1; RFC 8200, section 3). Returns its length. */
static size_t put_packet(uint8_t *out, const struct packet *packet)
{
    const size_t base_len = packet->base.len;
    size_t len = base_len + put_chain(out + base_len, &packet->chain, packet->number);
    memcpy(out, packet->base.bytes, base_len);
    memcpy(out + len, packet->data, packet->len);
    len += packet->len;
    if (is_ipv4(&packet->base)) {
        out[9] = number_at(&packet->chain, 0, packet->number);
        put_word(out + 2, len);
        put_word(out + 10, 0);
        put_word(out + 10, checksum_of(out, base_len));
    } else {
        out[6] = number_at(&packet->chain, 0, packet->number);
        put_word(out + 4, len - base_len);
    }
    return len;
}

/* Makes a header of random bytes with a length of its number. A fragment header is atomic. */
static struct header random_header(uint8_t number, bool for_ipv4)
{
    struct header header = {number, 8 * (1 + draw(draw(8) ? 3 : 8)), {0}};
    if (number == WOLFAREN_FRAGMENT) header.len = 8;
    if (number == WOLFAREN_AUTHENTICATION) header.len = for_ipv4 ? 12 + 4 * draw(5) : 16 + 8 * draw(3);
    draw_bytes(header.bytes, header.len);
    if (number == WOLFAREN_AUTHENTICATION) {
        header.bytes[1] = (uint8_t)(header.len / 4 - 2);
        if (draw(2)) put_word(header.bytes + 2, 0);
    } else if (number == WOLFAREN_FRAGMENT) {
        header.bytes[1] = (uint8_t)(draw(2) ? 0 : header.bytes[1]);
        put_word(header.bytes + 2, draw(2) ? 0 : 2 * draw(4));
    } else {
        header.bytes[1] = (uint8_t)(header.len / 8 - 1);
        if (number == WOLFAREN_ROUTING && draw(2)) header.bytes[3] = 0;
    }
    return header;
}

static void append(struct chain *chain, uint8_t number, bool for_ipv4)
{
    chain->headers[chain->count++] = random_header(number, for_ipv4);
}

/* Makes the base header of a packet with random fields, addresses and options. */
static struct base random_base(bool for_ipv4)
{
    static const uint8_t options[3][4] = {{1, 1, 1, 1}, {7, 3, 4, 1}, {0x83, 3, 4, 1}};
    struct base base = {{0}, for_ipv4 ? 20 : 40};
    draw_bytes(base.bytes, base.len);
    base.bytes[0] = (uint8_t)(for_ipv4 ? 0x45 : 0x60 | draw(16));
    if (!for_ipv4) return base;
    put_word(base.bytes + 6, 0);
    for (size_t i = draw(4); i > 0; i--) {
        memcpy(base.bytes + base.len, options[draw(3)], 4);
        base.len += 4;
    }
    base.bytes[0] = (uint8_t)(0x40 + base.len / 4);
    return base;
}

/* The base header of a later fragment. It has only the options whose copied flag is 1, and a random hop limit. */
static struct base later_base(const struct base *first)
{
    struct base base = *first;
    base.bytes[is_ipv4(first) ? 8 : 7] = (uint8_t)draw(256);
    if (!is_ipv4(first)) return base;
    base.len = 20;
    for (size_t at = 20; at < first->len; at += 4) {
        if (!(first->bytes[at] & 0x80)) continue;
        memcpy(base.bytes + base.len, first->bytes + at, 4);
        base.len += 4;
    }
    base.bytes[0] = (uint8_t)(0x40 + base.len / 4);
    return base;
}

/* Makes headers of IPv6 that precede the fragment header, or follow it. */
static struct chain random_chain(bool is_before)
{
    static const uint8_t numbers[] = {WOLFAREN_ROUTING, WOLFAREN_DESTINATION_OPTIONS, WOLFAREN_ROUTING, WOLFAREN_DESTINATION_OPTIONS,
                                      WOLFAREN_DESTINATION_OPTIONS, WOLFAREN_AUTHENTICATION, WOLFAREN_FRAGMENT};
    struct chain chain = {.count = 0};
    if (is_before && draw(2)) append(&chain, WOLFAREN_HOP_BY_HOP, false);
    for (size_t i = draw(is_before ? 4 : 3); i > 0; i--) append(&chain, numbers[draw(sizeof numbers)], false);
    return chain;
}

/* Draws the sizes of pieces: multiples of 8 bytes but for the last, and the first has at least so many bytes. Some packets are
 * as long as one can be, or nearly. */
static size_t random_sizes(size_t *sizes, size_t least, size_t most)
{
    const size_t count = 2 + draw(MOST_PIECES - 1);
    size_t sum = sizes[0] = (least + 7) / 8 * 8 + 8 * draw(4);
    if (sum == 0) sum = sizes[0] = 8;
    for (size_t i = 1; i < count; i++) sum += sizes[i] = i + 1 < count ? 8 * (1 + draw(6)) : 1 + draw(40);
    if (count > 2 && draw(64) == 0) {
        const size_t missing = most - draw(2) * draw(80) - sum;
        sizes[count - 2] += missing / 8 * 8;
        sizes[count - 1] += missing % 8;
    }
    return count;
}

/* Cuts what follows the headers before the fragment header into pieces. */
static void cut(const struct packet *unfragmented, const struct chain *after, const size_t *sizes, size_t count, struct piece *pieces)
{
    const bool for_ipv4 = is_ipv4(&unfragmented->base);
    struct header fragment_header = {WOLFAREN_FRAGMENT, 8, {0}};
    size_t start = 0;
    draw_bytes(fragment_header.bytes + 4, 4);
    for (size_t i = 0; i < count; start += sizes[i++]) {
        struct packet *packet = &pieces[i].packet;
        *packet = *unfragmented;
        pieces[i].is_first = i == 0;
        pieces[i].after.count = 0;
        if (i == 0)
            pieces[i].after = *after;
        else
            packet->base = later_base(&unfragmented->base);
        packet->data = unfragmented->data + start;
        packet->len = sizes[i];
        if (for_ipv4) {
            put_word(packet->base.bytes + 6, (i + 1 < count ? 0x2000 : 0) | start / 8);
        } else {
            fragment_header.bytes[1] = (uint8_t)(draw(4) ? 0 : draw(256));
            put_word(fragment_header.bytes + 2, start | (draw(4) ? 0 : 2 * draw(4)) | (i + 1 < count ? 1 : 0));
            packet->chain.headers[packet->chain.count++] = fragment_header;
        }
    }
}

static struct change random_change(bool for_ipv4, size_t before)
{
    static const uint8_t numbers[] = {WOLFAREN_HOP_BY_HOP, WOLFAREN_ROUTING, WOLFAREN_DESTINATION_OPTIONS, WOLFAREN_HOP_BY_HOP,
                                      WOLFAREN_ROUTING, WOLFAREN_DESTINATION_OPTIONS, WOLFAREN_AUTHENTICATION, WOLFAREN_FRAGMENT};
    struct change change = {(enum call)draw(3), draw(2), numbers[draw(sizeof numbers)], 0, {0, 0, {0}}};
    if (for_ipv4 && draw(4)) change.number = WOLFAREN_AUTHENTICATION;
    if (change.call != WITH) return change;
    change.index = change.number == WOLFAREN_HOP_BY_HOP && draw(8) ? 0 : draw(before + (draw(4) ? 1 : 4));
    change.added = random_header(change.number, for_ipv4);
    return change;
}

static bool is_reserved_set(const struct header *header)
{
    const uint8_t *bytes = header->bytes;
    return header->number == WOLFAREN_AUTHENTICATION ? bytes[2] || bytes[3] : header->number == WOLFAREN_FRAGMENT && (bytes[1] || (bytes[3] & 6));
}

/* Whether a change leaves a header out or clears bits of it. */
static bool is_changed(const struct header *header, const struct change *change)
{
    return change->call == CLEARED ? is_reserved_set(header) : change->call == WITHOUT && header->number == change->number;
}

/* Makes a change in headers. */
static struct chain changed(const struct chain *chain, const struct change *change)
{
    struct chain found = {.count = 0};
    for (size_t i = 0; i <= chain->count; i++) {
        if (change->call == WITH && i == change->index) found.headers[found.count++] = change->added;
        if (i == chain->count || (change->call == WITHOUT && is_changed(&chain->headers[i], change))) continue;
        struct header *header = &found.headers[found.count++];
        *header = chain->headers[i];
        if (change->call != CLEARED || !is_changed(header, change)) continue;
        header->bytes[header->number == WOLFAREN_FRAGMENT ? 1 : 2] = 0;
        header->bytes[3] &= header->number == WOLFAREN_FRAGMENT ? 0xf9 : 0;
    }
    return found;
}

static bool has_segments(const struct header *header)
{
    return header->number == WOLFAREN_ROUTING && header->bytes[3] != 0;
}

static bool keeps_checksums(const struct chain *chain, const struct change *change)
{
    if (change->call == WITH) return !has_segments(&change->added);
    for (size_t i = 0; i < chain->count && change->call == WITHOUT; i++)
        if (is_changed(&chain->headers[i], change) && has_segments(&chain->headers[i])) return false;
    return true;
}

/* What is seen of a packet: its headers, of which those from an index on are in the part that is fragmented, the number that follows
 * them in a later fragment, and otherwise 0. */
struct view {
    struct chain chain;
    size_t fixed;
    uint8_t following;
    bool is_ipv4, is_fragment, is_later;
};

static struct view view_of(const struct packet *packet, const struct piece *piece)
{
    struct view view = {packet->chain, packet->chain.count, 0, is_ipv4(&packet->base), piece != NULL, piece != NULL && !piece->is_first};
    if (view.is_later) view.following = packet->number;
    for (size_t i = 0; piece != NULL && i < piece->after.count; i++) view.chain.headers[view.chain.count++] = piece->after.headers[i];
    return view;
}

/* Whether an authentication header that stays covers the change: all but fragment headers before it (RFC 4302, sections 3.3.3 and
 * 3.3.4). */
static bool is_covered(const struct view *view, const struct change *change)
{
    const struct header *headers = view->chain.headers;
    const size_t count = view->chain.count;
    size_t first = 0;
    while (first < count && (headers[first].number != WOLFAREN_AUTHENTICATION || (change->call == WITHOUT && is_changed(&headers[first], change))))
        first++;
    if (first == count && view->following != WOLFAREN_AUTHENTICATION) return false;
    for (size_t i = 0; i < count; i++)
        if (is_changed(&headers[i], change) && (headers[i].number != WOLFAREN_FRAGMENT || i > first)) return true;
    return change->call == WITH;
}

/* The reason for which leaving headers out, or clearing them, is refused, before authentication headers and lengths count. */
static uint8_t refusal_of_changed(const struct view *view, const struct change *change)
{
    bool has_changed = false, is_fragmented = false;
    for (size_t i = 0; i < view->chain.count; i++) {
        const bool is_one = is_changed(&view->chain.headers[i], change);
        if (is_one && change->call == WITHOUT && change->number == WOLFAREN_FRAGMENT && view->is_fragment && i + 1 == view->fixed)
            return WOLFAREN_REFUSED_FRAGMENT_HEADER;
        has_changed |= is_one;
        is_fragmented |= is_one && view->is_fragment && i >= view->fixed;
    }
    if (change->call == WITHOUT && !has_changed) return WOLFAREN_REFUSED_NO_HEADER;
    return is_fragmented ? WOLFAREN_REFUSED_FRAGMENTED : WOLFAREN_NOT_REFUSED;
}

static uint8_t refusal_of_added(const struct view *view, const struct change *change)
{
    const struct chain *chain = &view->chain;
    const bool follows = change->number == WOLFAREN_HOP_BY_HOP && change->index > 0;
    const bool precedes = change->index == 0 && number_at(chain, 0, UDP) == WOLFAREN_HOP_BY_HOP;
    if (view->is_ipv4 && change->number != WOLFAREN_AUTHENTICATION) return WOLFAREN_REFUSED_NOT_A_HEADER;
    if (change->index > chain->count || follows || precedes || (view->is_ipv4 && chain->count > 0)) return WOLFAREN_REFUSED_MISPLACED;
    return view->is_fragment && change->index >= view->fixed ? WOLFAREN_REFUSED_FRAGMENTED : WOLFAREN_NOT_REFUSED;
}

/* The reason for which a change is refused: the first one in the list of wolfaren.h. */
static uint8_t refusal_of(const struct view *view, const struct change *change, bool has_length)
{
    if (view->is_ipv4 && view->is_later) return WOLFAREN_REFUSED_LATER_FRAGMENT;
    const uint8_t found = change->call == WITH ? refusal_of_added(view, change) : refusal_of_changed(view, change);
    if (found != WOLFAREN_NOT_REFUSED) return found;
    if (!change->may_be_invalid && is_covered(view, change)) return WOLFAREN_REFUSED_AUTHENTICATED;
    return has_length ? WOLFAREN_NOT_REFUSED : WOLFAREN_REFUSED_TOO_LONG;
}

static bool call(const uint8_t *bytes, size_t len, const struct change *change, uint8_t *out, struct wolfaren_rewritten *done)
{
    const struct header *added = &change->added;
    const bool may = change->may_be_invalid;
    switch (change->call) {
    case WITHOUT: return wolfaren_remove_headers(bytes, len, change->number, may, out, len, done);
    case WITH: return wolfaren_with_header(bytes, len, added->number, added->bytes, added->len, change->index, may, out, len + added->len, done);
    default: return wolfaren_clear_reserved_bits(bytes, len, may, out, len, done);
    }
}

/* Rewrites a packet, or a piece of one, and compares what is written with the packet that is built with the change. Returns the
 * reason for which it was refused. */
static uint8_t rewrite(const struct packet *packet, const struct piece *piece, const struct change *change, uint8_t *out, size_t *len)
{
    static uint8_t bytes[ROOM], wanted[2 * ROOM];
    const struct view view = view_of(packet, piece);
    struct packet after = *packet;
    struct wolfaren_rewritten done;
    after.chain = changed(&packet->chain, change);
    const uint8_t refusal = refusal_of(&view, change, fits(&after));
    const bool is_written = call(bytes, put_packet(bytes, packet), change, out, &done);
    expect(done.refusal == refusal, "the reason of a refusal");
    expect(is_written == (refusal == WOLFAREN_NOT_REFUSED), "the result");
    *len = done.len;
    if (!is_written) return refusal;
    expect(done.len == put_packet(wanted, &after) && memcmp(out, wanted, done.len) == 0, "the packet that is written");
    expect(done.keeps_checksums == keeps_checksums(&view.chain, change), "checksums");
    return refusal;
}

static uint8_t pieces_bytes[MOST_PIECES][ROOM];
static size_t pieces_lens[MOST_PIECES];

/* Adds the pieces to the defragmenter in a random order, some repeated, until each has arrived. Expects them to be joined then to
 * these bytes, unless the packet is too long: then a piece is refused. */
static void expect_joined(size_t count, const uint8_t *wanted, size_t len, bool is_too_long)
{
    static uint8_t out[WOLFAREN_WHOLE_PACKET_ROOM];
    size_t order[2 * MOST_PIECES], arrivals = count, written;
    bool is_here[MOST_PIECES] = {false}, is_refused = false;
    for (size_t i = 0; i < count; i++) order[i] = i;
    while (arrivals < 2 * count && draw(3)) order[arrivals++] = draw(count);
    for (size_t i = 0, left = count; left > 0; i++) {
        const size_t other = i + draw(arrivals - i), index = order[other];
        struct wolfaren_added added;
        order[other] = order[i];
        wolfaren_defragmenter_add(defragmenter, 7, pieces_bytes[index], pieces_lens[index], 0, &added);
        left -= is_here[index] ? 0 : 1;
        is_here[index] = true;
        is_refused |= added.outcome == WOLFAREN_TOO_LONG;
        expect(added.outcome == (left == 0 ? WOLFAREN_WHOLE : WOLFAREN_MORE_WANTED) || is_too_long, "the outcome of a fragment");
        expect(!is_too_long || added.outcome == WOLFAREN_TOO_LONG || added.outcome == WOLFAREN_MORE_WANTED, "a packet that is too long");
        if (left > 0 || is_too_long) continue;
        expect(wolfaren_defragmenter_packet(defragmenter, added.slot, out, sizeof out, &written), "the joined packet");
        expect(written == len && memcmp(out, wanted, len) == 0, "the bytes of the joined packet");
    }
    expect(is_refused == is_too_long, "a packet that fits");
}

/* Whether each fragment was refused for this reason, or not at all. */
static bool are_only(uint8_t reason, const uint8_t *refusals, size_t count)
{
    for (size_t i = 0; i < count; i++)
        if (refusals[i] != reason && refusals[i] != WOLFAREN_NOT_REFUSED) return false;
    return true;
}

/* Returns the outcome of a packet and its fragments that were refused for these reasons. */
static enum outcome outcome_of(uint8_t whole, const uint8_t *refusals, size_t count)
{
    size_t alike = 0;
    while (alike < count && refusals[alike] == whole) alike++;
    if (alike == count) return whole == WOLFAREN_NOT_REFUSED ? JOINED : ALIKE;
    if (whole == WOLFAREN_REFUSED_TOO_LONG && are_only(whole, refusals, count)) return TOO_LONG;
    if (refusals[1] == WOLFAREN_REFUSED_LATER_FRAGMENT) return LATER_IPV4;
    if (refusals[0] == WOLFAREN_REFUSED_FRAGMENTED) return IN_FRAGMENTED;
    if (refusals[0] == WOLFAREN_REFUSED_FRAGMENT_HEADER) return OF_FRAGMENTS;
    if (whole == WOLFAREN_REFUSED_AUTHENTICATED && refusals[0] == whole) return HIDDEN;
    expect(whole == WOLFAREN_NOT_REFUSED && are_only(WOLFAREN_REFUSED_AUTHENTICATED, refusals, count), "refusals that have a reason");
    return COVERED;
}

/* Makes a random packet and its fragments. Returns how many there are. */
static size_t random_packet(struct packet *whole, struct piece *pieces)
{
    static uint8_t fragmented[ROOM];
    const bool for_ipv4 = draw(8) == 0;
    struct chain before = {.count = 0}, after = {.count = 0};
    size_t sizes[MOST_PIECES], len = 0;
    if (!for_ipv4) {
        before = random_chain(true);
        after = random_chain(false);
    } else if (draw(2)) {
        append(&after, WOLFAREN_AUTHENTICATION, true);
    }
    const struct base base = random_base(for_ipv4);
    const size_t after_len = put_chain(fragmented, &after, UDP);
    const size_t count = random_sizes(sizes, after_len, MOST_LEN - (for_ipv4 ? base.len : chain_len(&before)));
    for (size_t i = 0; i < count; i++) len += sizes[i];
    draw_bytes(fragmented + after_len, len - after_len);
    const struct packet unfragmented = {base, before, number_at(&after, 0, UDP), fragmented, len};
    cut(&unfragmented, &after, sizes, count, pieces);
    *whole = (struct packet){base, before, UDP, fragmented + after_len, len - after_len};
    for (size_t i = 0; i < after.count; i++) whole->chain.headers[whole->chain.count++] = after.headers[i];
    return count;
}

/* Compares a random packet, with a random change, with its fragments. */
static void compare(void)
{
    static uint8_t bytes[ROOM], out[ROOM];
    static struct packet packet;
    static struct piece pieces[MOST_PIECES];
    uint8_t refusals[MOST_PIECES];
    size_t len;
    const size_t count = random_packet(&packet, pieces);
    for (size_t i = 0; i < count; i++) pieces_lens[i] = put_packet(pieces_bytes[i], &pieces[i].packet);
    expect_joined(count, bytes, put_packet(bytes, &packet), false);

    const struct change change = random_change(is_ipv4(&packet.base), packet.chain.count - pieces[0].after.count);
    const uint8_t refusal = rewrite(&packet, NULL, &change, out, &len);
    for (size_t i = 0; i < count; i++) refusals[i] = rewrite(&pieces[i].packet, &pieces[i], &change, pieces_bytes[i], &pieces_lens[i]);
    const enum outcome outcome = outcome_of(refusal, refusals, count);
    counts[outcome]++;
    if (are_only(WOLFAREN_NOT_REFUSED, refusals, count)) expect_joined(count, out, len, outcome == TOO_LONG);
}

int main(int count, char **arguments)
{
    static const uint64_t seed[2] = {0x0123456789abcdef, 0xfedcba9876543210};
    const unsigned long packets = count > 1 ? strtoul(arguments[1], NULL, 10) : 20000;
    if (getenv("SEED") != NULL) state = strtoull(getenv("SEED"), NULL, 10);
    const size_t size = wolfaren_defragmenter_size(SLOTS);
    void *const memory = calloc(size, 1);
    expect(memory != NULL, "memory");
    defragmenter = wolfaren_defragmenter_init(memory, size, seed);
    expect(defragmenter != NULL, "a defragmenter");
    while (made++ < packets) compare();
    for (int i = 0; i < OUTCOMES; i++) {
        printf("%8lu %s\n", counts[i], outcome_texts[i]);
        expect(counts[i] > 0 || packets < 20000 || getenv("SEED") != NULL, "each outcome of the default seed");
    }
    free(defragmenter);
    return 0;
}
