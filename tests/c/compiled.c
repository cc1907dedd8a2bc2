/*
 * Tests wolfaren_compile_filter. Runs programs of random filters on random packets by a plain interpreter, and compares what they
 * return with wolfaren_filter_matches: equal where all terms are decided, otherwise on the side that the caller wants.
 */
#include "wolfaren.h"

#include <stdio.h>
#include <stdlib.h>
#include <string.h>

enum { ROOM = WOLFAREN_BPF_INSTRUCTIONS, MOST_PACKET = 80, WORDS = 16, TEXT = 4096, FILTERS = 600, PACKETS = 60 };

/* The classes of codes, and the bits of one (Linux, Documentation/networking/filter.rst). */
enum { LD, LDX, ST, STX, ALU, JMP, RET, MISC };
enum { IMM = 0x00, ABSOLUTE = 0x20, INDIRECT = 0x40, MEMORY = 0x60, LENGTH = 0x80, HEADER_LENGTH = 0xa0 };

struct program {
    struct wolfaren_bpf_instruction instructions[ROOM];
    size_t count;
};

struct machine {
    uint32_t a, x, memory[WORDS];
    size_t next;
};

static struct program kept, dropped;
static uint8_t packet[MOST_PACKET];
static size_t len;
static uint64_t state = 1;

static void check(bool holds, const char *what)
{
    if (holds) return;
    fprintf(stderr, "compiled: %s\n", what);
    exit(1);
}

/* Returns a random number below a bound (SplitMix64). */
static size_t draw(size_t bound)
{
    uint64_t word = state += 0x9e3779b97f4a7c15;
    word = (word ^ word >> 30) * 0xbf58476d1ce4e5b9;
    word = (word ^ word >> 27) * 0x94d049bb133111eb;
    return (size_t)((word ^ word >> 31) >> 16) % bound;
}

/* Loads the bytes at an offset. Returns false if the packet doesn't have them. */
static bool load(uint32_t *value, uint64_t offset, unsigned size)
{
    if (offset + size > len) return false;
    *value = 0;
    for (unsigned i = 0; i < size; i++) *value = *value << 8 | packet[offset + i];
    return true;
}

/* Loads to the accumulator. Returns false if the program ends. */
static bool load_a(struct machine *m, const struct wolfaren_bpf_instruction *it)
{
    static const unsigned sizes[] = {4, 2, 1};
    const unsigned size = (it->code >> 3 & 3) < 3 ? sizes[it->code >> 3 & 3] : 0;
    switch (it->code & 0xe0) {
    case IMM: m->a = it->k; return true;
    case ABSOLUTE: return load(&m->a, it->k, size);
    case INDIRECT: return load(&m->a, (uint32_t)(m->x + it->k), size);
    case MEMORY: m->a = m->memory[it->k]; return true;
    default: m->a = (uint32_t)len; return true;
    }
}

/* Loads to the index register. Returns false if the program ends. */
static bool load_x(struct machine *m, const struct wolfaren_bpf_instruction *it)
{
    uint32_t byte;
    switch (it->code & 0xe0) {
    case IMM: m->x = it->k; return true;
    case MEMORY: m->x = m->memory[it->k]; return true;
    case HEADER_LENGTH:
        if (!load(&byte, it->k, 1)) return false;
        m->x = 4 * (byte & 15);
        return true;
    default: m->x = (uint32_t)len; return true;
    }
}

static void compute(struct machine *m, const struct wolfaren_bpf_instruction *it)
{
    const uint32_t b = it->code & 8 ? m->x : it->k;
    switch (it->code & 0xf0) {
    case 0x00: m->a += b; break;
    case 0x10: m->a -= b; break;
    case 0x20: m->a *= b; break;
    case 0x40: m->a |= b; break;
    case 0x50: m->a &= b; break;
    case 0x60: m->a <<= b & 31; break;
    case 0x70: m->a >>= b & 31; break;
    default: check(false, "an operation that these programs don't need");
    }
}

static void jump(struct machine *m, const struct wolfaren_bpf_instruction *it)
{
    const uint32_t b = it->code & 8 ? m->x : it->k;
    switch (it->code & 0xf0) {
    case 0x00: m->next += it->k; break;
    case 0x10: m->next += m->a == b ? it->jt : it->jf; break;
    case 0x20: m->next += m->a > b ? it->jt : it->jf; break;
    case 0x30: m->next += m->a >= b ? it->jt : it->jf; break;
    case 0x40: m->next += m->a & b ? it->jt : it->jf; break;
    default: check(false, "an unknown jump");
    }
}

/* Runs a program on the packet, and returns what it returns. */
static uint32_t run(const struct program *program)
{
    struct machine m = {.next = 0};
    while (m.next < program->count) {
        const struct wolfaren_bpf_instruction *it = &program->instructions[m.next++];
        switch (it->code & 7) {
        case LD: if (!load_a(&m, it)) return 0; break;
        case LDX: if (!load_x(&m, it)) return 0; break;
        case ST: m.memory[it->k] = m.a; break;
        case STX: m.memory[it->k] = m.x; break;
        case ALU: compute(&m, it); break;
        case JMP: jump(&m, it); break;
        case RET: return it->code & 0x10 ? m.a : it->k;
        default:
            if (it->code & 0x80) m.a = m.x;
            else m.x = m.a;
        }
    }
    check(false, "a jump beyond the last instruction");
    return 0;
}

static bool accepts(const struct program *program)
{
    const uint32_t result = run(program);
    check(result == 0 || result == UINT32_MAX, "all bytes or none are accepted");
    return result != 0;
}

/* Compiles a filter for both meanings of what isn't decided. */
static void compile(const struct wolfaren_filter *filter)
{
    memset(&kept, 0xa5, sizeof kept);
    check(wolfaren_compile_filter(filter, true, kept.instructions, ROOM, &kept.count), "a program that keeps");
    check(wolfaren_compile_filter(filter, false, dropped.instructions, ROOM, &dropped.count), "a program that drops");
}

static void parse(const char *text, struct wolfaren_filter *filter)
{
    struct wolfaren_filter_error error;
    check(wolfaren_parse_filter(text, strlen(text), filter, &error), text);
}

static bool are_equal(void)
{
    return kept.count == dropped.count && memcmp(kept.instructions, dropped.instructions, kept.count * sizeof *kept.instructions) == 0;
}

/* Stores random bytes below a bound. */
static void draw_bytes(uint8_t *bytes, size_t count, size_t bound)
{
    for (size_t i = 0; i < count; i++) bytes[i] = (uint8_t)draw(bound);
}

/* Makes a packet of IPv4 or IPv6 with addresses that differ in few bits, which may be truncated, or has any first byte. */
static void make_packet(void)
{
    const bool is_ipv4 = draw(2);
    len = is_ipv4 ? 20 + draw(40) : 40 + draw(40);
    draw_bytes(packet, len, draw(2) ? 3 : 256);
    packet[0] = (uint8_t)(is_ipv4 ? 0x45 + draw(draw(4) ? 1 : 4) : 0x60 + draw(draw(4) ? 1 : 16));
    packet[is_ipv4 ? 3 : 5] = (uint8_t)(is_ipv4 ? len : len - 40);
    memset(packet + (is_ipv4 ? 12 : 8), 0, is_ipv4 ? 8 : 32);
    for (size_t i = 0; i < 2; i++) {
        uint8_t *address = packet + (is_ipv4 ? 12 + 4 * i : 8 + 16 * i);
        address[0] = (uint8_t)(is_ipv4 ? 10 : 0x20);
        address[draw(is_ipv4 ? 4 : 16)] ^= (uint8_t)(1 << draw(8) & -(int)draw(2));
    }
    if (draw(4) == 0) len = draw(len + 1);
    if (draw(8) == 0) packet[0] = (uint8_t)draw(256);
}

/* Writes a term. Whether the program decides it says `is_decided`. */
static void append_term(char *text, bool *is_decided)
{
    static const char *const directions[] = {"src", "dst", "net"}, *const others[] = {"fault", "payload > 9", "header 44", "tcp"};
    static const char *const fields[] = {"ttl", "hop-limit", "dscp", "ecn", "flow"};
    static const char *const comparisons[] = {"=", "!=", "<", "<=", ">", ">="};
    static const unsigned long long numbers[] = {0, 1, 2, 3, 16, 63, 255, 0xfffff, 0xfffffffe, 0xffffffff, 1ULL << 32, UINT64_MAX};
    char term[64];
    if (draw(8) == 0) {
        *is_decided = false;
        strcpy(term, others[draw(4)]);
    } else if (draw(3) == 0) {
        snprintf(term, sizeof term, "%s %s %llu", fields[draw(5)], comparisons[draw(6)], draw(2) ? draw(70) : numbers[draw(12)]);
    } else if (draw(2)) {
        snprintf(term, sizeof term, "%s 10.%u.0.%u/%u", directions[draw(3)], (unsigned)draw(2), (unsigned)draw(2), (unsigned)draw(33));
    } else {
        snprintf(term, sizeof term, "%s 2000::%x/%u", directions[draw(3)], (unsigned)draw(2) << draw(16), (unsigned)draw(129));
    }
    strcat(text, draw(3) ? "" : "not ");
    strcat(text, term);
}

/* Makes the text of a filter of up to `most` terms. Returns whether a program decides all of them. */
static bool make_text(char *text, size_t most)
{
    bool is_decided = true;
    text[0] = '\0';
    append_term(text, &is_decided);
    for (size_t i = draw(most); i > 0; i--) {
        strcat(text, draw(2) ? " and " : " or ");
        append_term(text, &is_decided);
    }
    return is_decided;
}

/* Checks what the programs of a filter say of the packet. */
static void check_packet(const struct wolfaren_filter *filter, bool is_decided, const char *text)
{
    const bool matches = wolfaren_filter_matches(filter, packet, len), keeps = accepts(&kept), drops = !accepts(&dropped);
    check(keeps || !matches, text);
    check(drops || matches, text);
    if (is_decided) check(keeps == matches && drops == !matches, text);
}

static void random_filters(void)
{
    static char text[TEXT];
    struct wolfaren_filter filter;
    size_t undecided = 0;
    for (size_t i = 0; i < FILTERS; i++) {
        const bool is_decided = make_text(text, i % 20 ? 5 : 64);
        parse(text, &filter);
        compile(&filter);
        check(is_decided ? are_equal() : true, text);
        undecided += !are_equal();
        for (size_t j = 0; j < PACKETS; j++) {
            make_packet();
            check_packet(&filter, is_decided, text);
        }
    }
    check(undecided > FILTERS / 10, "filters with other terms have two programs");
}

/* Each test of an unknown kind, and each term that asks for more than the addresses, is undecided. */
static void undecided_tests(void)
{
    struct wolfaren_filter filter;
    parse("net 10.0.0.0/8", &filter);
    filter.tests[0].kind = 255;
    compile(&filter);
    make_packet();
    check(accepts(&kept) && !accepts(&dropped) && !are_equal(), "a test of an unknown kind");
    filter.count = 0;
    compile(&filter);
    check(!accepts(&kept) && !accepts(&dropped) && are_equal(), "a filter without tests");
}

/* Whether the programs of a text, which has to be decided, accept the packet. */
static bool is_accepted(const char *text)
{
    struct wolfaren_filter filter;
    parse(text, &filter);
    compile(&filter);
    check(are_equal() && accepts(&kept) == accepts(&dropped), text);
    return accepts(&kept);
}

/* Fields of base headers that RFC 791 and RFC 8200 lay out. */
static void known_fields(void)
{
    static const uint8_t ipv4[20] = {0x45, 0xb9, 0, 20, [8] = 7}, ipv6[40] = {0x6b, 0x9c, 0xde, 0xf1, [7] = 9};
    memcpy(packet, ipv4, len = sizeof ipv4);
    check(is_accepted("ttl = 7 and hop-limit < 8 and dscp = 46 and ecn = 1"), "fields of IPv4");
    check(!is_accepted("flow >= 0") && !is_accepted("ttl > 4294967303") && is_accepted("dscp != 4294967342"), "numbers of 64 bits");
    memcpy(packet, ipv6, len = sizeof ipv6);
    check(is_accepted("ttl = 9 and hop-limit >= 9 and dscp = 46 and ecn = 1 and flow = 0xcdef1"), "fields of IPv6");
    check(!is_accepted("flow > 0xcdef1") && is_accepted("flow <= 0xcdef1") && !is_accepted("ecn = 9"), "numbers that differ by a bit");
    len = 39;
    check(!is_accepted("flow >= 0") && is_accepted("not ttl >= 0"), "fields of a truncated header");
}

/* The source 10.0.0.1 at offset 12 and its network of 8 bits, by bpf(4). */
static void known_packets(void)
{
    struct wolfaren_filter filter;
    static const uint8_t bytes[20] = {0x45, 0, 0, 20, [12] = 10, 0, 0, 1, 10, 0, 0, 2};
    parse("src 10.0.0.0/8 and dst 10.0.0.2", &filter);
    compile(&filter);
    memcpy(packet, bytes, len = sizeof bytes);
    check(accepts(&kept) && accepts(&dropped), "a packet of the network");
    packet[19] = 3;
    check(!accepts(&kept) && !accepts(&dropped), "a packet to another address");
    packet[19] = 2;
    len = 19;
    check(!accepts(&kept) && !accepts(&dropped), "a truncated base header has no addresses");
}

/* With too little room nothing is written, and with more nothing after the program. */
static void rooms(void)
{
    struct wolfaren_filter filter;
    static struct program other;
    size_t count = 7;
    parse("net 10.0.0.0/8 or net 2000::/3", &filter);
    compile(&filter);
    check(!wolfaren_compile_filter(&filter, true, NULL, 0, &count) && count == kept.count, "a program without room");
    memset(&other, 0xa5, sizeof other);
    check(!wolfaren_compile_filter(&filter, true, other.instructions, kept.count - 1, &count) && count == kept.count, "too little room");
    check(other.instructions[0].code == 0xa5a5, "a program that doesn't fit isn't written");
    check(wolfaren_compile_filter(&filter, true, other.instructions, kept.count, &count) && count == kept.count, "just enough room");
    check(memcmp(other.instructions, kept.instructions, sizeof kept.instructions) == 0, "what follows the program is unchanged");
    const struct wolfaren_bpf_instruction last = kept.instructions[kept.count - 1];
    check(last.code == RET && last.jt == 0 && last.jf == 0 && last.k == 0, "the last instruction rejects");
}

/* The longest filter: 64 tests of either address, of which each may be of IPv4 or IPv6. */
static void longest_filter(void)
{
    struct wolfaren_filter filter;
    parse("net 2000::1", &filter);
    for (size_t i = 1; i < WOLFAREN_FILTER_TESTS; i++) {
        filter.tests[i] = filter.tests[0];
        filter.tests[i - 1].if_not = (uint8_t)i;
    }
    filter.count = WOLFAREN_FILTER_TESTS;
    compile(&filter);
    check(kept.count > 1000 && are_equal(), "a long program");
    make_packet();
    check_packet(&filter, true, "64 tests");
}

int main(void)
{
    random_filters();
    undecided_tests();
    known_fields();
    known_packets();
    rooms();
    longest_filter();
    return 0;
}
