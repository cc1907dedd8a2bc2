/* Tests filters: texts that match and that are refused, programs of tests, any contents, null, and the texts of errors. */
#include "wolfaren.h"

#include <stdio.h>
#include <stdlib.h>
#include <string.h>
#include <time.h>

/* From 192.0.2.1 to 192.0.2.2, the first fragment with identification 0x1234, with an authentication header and 2 bytes. */
static const uint8_t IPV4[34] = {0x45, 0,   0, 34, 0x12, 0x34, 0x20, 0, 64, 51, 0, 0, 192, 0, 2, 1, 192,
                                 0,    2,   2, 6,  1,    0,    0,    0, 0,  1,  2, 0, 0,   0, 3, 9, 9};

static void check(bool holds, const char *what)
{
    if (holds) return;
    fprintf(stderr, "filters: %s\n", what);
    exit(1);
}

/* Parses a text that has no byte after it. */
static bool parse(const char *text, struct wolfaren_filter *filter, struct wolfaren_filter_error *error)
{
    size_t len = strlen(text);
    char *copy = malloc(len == 0 ? 1 : len);
    check(copy != NULL, "memory");
    memcpy(copy, text, len);
    bool is_filter = wolfaren_parse_filter(copy, len, filter, error);
    free(copy);
    return is_filter;
}

static void check_matches(const char *text, bool matches, bool matches_other)
{
    struct wolfaren_filter filter;
    struct wolfaren_filter_error error = {7, 7};
    memset(&filter, 0xa5, sizeof filter);
    check(parse(text, &filter, &error), text);
    check(error.offset == 7 && error.expected == 7, "a filter leaves the error unchanged");
    check(wolfaren_filter_matches(&filter, IPV4, sizeof IPV4) == matches, text);
    check(wolfaren_filter_matches_other(&filter) == matches_other, text);
}

static void texts(void)
{
    check_matches("version 4", true, false);
    check_matches("first-fragment && header ah && leads-to tcp", true, false);
    check_matches("id 0x1234 and spi 258 and payload = 2 and chain-bytes >= 12 and headers < 2", true, false);
    check_matches("src 192.0.2.0/31 and dst 192.0.2.2 and net 0.0.0.0/0", true, false);
    check_matches("dst 192.0.2.0/31 or src ::/0 or later-fragment or fault", false, false);
    check_matches("not fault", true, true);
    check_matches("version 4 or version 6 and truncated", true, false);
    check_matches("(version 4 or version 6) and truncated", false, false);
    check_matches("!!fault", false, false);
    check_matches("ip and tcp and not ip6 and host 192.0.2.1", true, false);
    check_matches("length = 34 and ttl = 64 and hop-limit < 65 and dscp = 0 and ecn < 1", true, false);
    check_matches("flow >= 0", false, false);
    check_matches("src port 2313 and port 0-0x909 and no-transport", true, false);
    check_matches("dst port 0-65535 or port 2314-65535 or icmp-type 9 or icmp-code 9 or icmp6", false, false);
    check_matches("option 0 or option 1", false, false);
    check_matches("routing-type 0 or segments-left >= 0", false, false);
    check_matches("tcp-flags fin or not tcp-flags syn,ack/syn,ack,rst", true, true);
    check_matches("ip[0] & 0xf0 = 0x40 and ip[9] <= 255 and not ip6[0] >= 0", true, false);
}

static void check_refused(const char *text, size_t offset, uint8_t expected, const char *words)
{
    struct wolfaren_filter filter, before;
    struct wolfaren_filter_error error;
    char found[WOLFAREN_TEXT_ROOM];
    memset(&before, 0xa5, sizeof before);
    filter = before;
    check(!parse(text, &filter, &error), text);
    check(error.offset == offset && error.expected == expected, text);
    check(memcmp(&filter, &before, sizeof before) == 0, "an error leaves the filter unchanged");
    size_t len = wolfaren_expected_text(expected, found, sizeof found);
    check(len == strlen(words) && strcmp(found, words) == 0, words);
    found[0] = 'x';
    check(wolfaren_expected_text(expected, found, len) == len && found[0] == 'x', "a text without room");
}

static void refused(void)
{
    check_refused("", 0, WOLFAREN_EXPECTED_OPERAND, "a term, `not` or `(`");
    check_refused("fault fault", 6, WOLFAREN_EXPECTED_OPERATOR_OR_END, "`and`, `or` or the end");
    check_refused("(fault", 6, WOLFAREN_EXPECTED_OPERATOR_OR_CLOSE, "`and`, `or` or `)`");
    check_refused("payload > x", 10, WOLFAREN_EXPECTED_COUNT, "a number from 0 to 18446744073709551615");
    check_refused("not header 50", 11, WOLFAREN_EXPECTED_HEADER,
                  "0 (`hop-by-hop`), 43 (`routing`), 44 (`fragment`), 51 (`authentication`), 60 (`destination-options`), "
                  "or `leads-to N` in place of `header N`");
    check_refused("icmp-code 256", 10, WOLFAREN_EXPECTED_BYTE, "a number from 0 to 255");
    check_refused("icmp-type 256", 10, WOLFAREN_EXPECTED_ICMP_TYPE,
                  "a number from 0 to 255 or the name of a type, as icmp-echo");
    check_refused("icmp6-type icmp-echo", 11, WOLFAREN_EXPECTED_ICMP6_TYPE,
                  "a number from 0 to 255 or the name of a type, as icmp6-echo");
    check_refused("dst or ::1", 7, WOLFAREN_EXPECTED_SOURCE, "`src`");
    check_refused("src and ::1", 8, WOLFAREN_EXPECTED_DESTINATION, "`dst`");
    check_refused("net 10 mask", 11, WOLFAREN_EXPECTED_MASK, "a mask that begins with its ones, as 255.255.255.0");
    check_refused("tcp[13] tcp-syn", 8, WOLFAREN_EXPECTED_MASK_OR_COMPARISON, "`&` and a mask, or `=`, `!=`, `<`, `<=`, `>` or `>=`");
    check_refused("tcp[13] & psh", 10, WOLFAREN_EXPECTED_BITS,
                  "a number from 0 to 4294967295, a name as tcp-syn or icmp-echo, or `(` and several with `|` between them");
    check_refused("tcp[13] = (2|)", 13, WOLFAREN_EXPECTED_JOINED_BITS, "a number from 0 to 4294967295 or a name as tcp-syn or icmp-echo");
    check_refused("tcp[13] = (2,4)", 11, WOLFAREN_EXPECTED_JOINED_BITS, "a number from 0 to 4294967295 or a name as tcp-syn or icmp-echo");
    check_refused("tcp[13] = (2 4)", 13, WOLFAREN_EXPECTED_JOINED_BITS_END, "`|` or `)`");
    check_refused("src x", 4, WOLFAREN_EXPECTED_NETWORK_OR_PORT, "an address, a prefix or `port`");
    check_refused("net x", 4, WOLFAREN_EXPECTED_NETWORK, "an address or a prefix");
    check_refused("host ::1/64", 5, WOLFAREN_EXPECTED_ADDRESS, "an address");
    check_refused("tcp-flags fin/syn", 10, WOLFAREN_EXPECTED_TCP_FLAGS,
                  "`fin`, `syn`, `rst`, `psh`, `ack`, `urg`, `ece` or `cwr`, or a list as syn,ack or syn/syn,ack");
    check_refused("dst port 2-1", 9, WOLFAREN_EXPECTED_PORTS, "a port or a range of ports, as 1024-65535");
    struct wolfaren_filter filter;
    struct wolfaren_filter_error error;
    check(!wolfaren_parse_filter(NULL, 0, &filter, &error) && error.offset == 0, "no text");
    check(wolfaren_expected_text(0, NULL, 0) == 0 && wolfaren_expected_text(27, NULL, 0) == 0, "an unknown code");
}

static uint8_t next_byte(void)
{
    static uint32_t state = 1;
    state = state * 1664525 + 1013904223;
    return (uint8_t)(state >> 24);
}

/* Returns whether the packet meets the test. */
static bool meets(const struct wolfaren_filter_test *test)
{
    struct wolfaren_filter filter = {.count = 1, .tests[0] = *test};
    filter.tests[0].if_met = WOLFAREN_FILTER_PASSED;
    filter.tests[0].if_not = 255;
    return wolfaren_filter_matches(&filter, IPV4, sizeof IPV4);
}

/* Returns whether the packet passes: it is led from test to test, but never back. */
static bool passes(const struct wolfaren_filter *filter)
{
    size_t count = filter->count < WOLFAREN_FILTER_TESTS ? filter->count : WOLFAREN_FILTER_TESTS, index = 0;
    while (index < count) {
        const struct wolfaren_filter_test *test = &filter->tests[index];
        size_t next = meets(test) ? test->if_met : test->if_not;
        if (next <= index) return false;
        index = next;
    }
    return index == WOLFAREN_FILTER_PASSED;
}

/* Any contents are a filter, and what follows the packet doesn't matter. */
static void any_contents(void)
{
    struct wolfaren_filter filter;
    uint8_t longer[sizeof IPV4 + 9];
    memcpy(longer, IPV4, sizeof IPV4);
    memset(longer + sizeof IPV4, 44, 9);
    for (int round = 0; round < 20000; round++) {
        for (size_t i = 0; i < sizeof filter; i++) ((uint8_t *)&filter)[i] = next_byte();
        for (size_t i = 0; i < WOLFAREN_FILTER_TESTS; i++) {
            struct wolfaren_filter_test *test = &filter.tests[i];
            test->kind %= WOLFAREN_TEST_MISMATCHED + 2;
            if (round % 3 == 0) continue;
            test->if_met = (uint8_t)(i + test->if_met % 16);
            test->if_not = (uint8_t)(i + test->if_not % 16);
        }
        if (round % 2) filter.count %= 70;
        bool matches = wolfaren_filter_matches(&filter, IPV4, sizeof IPV4);
        check(matches == passes(&filter), "where tests lead");
        check(matches == wolfaren_filter_matches(&filter, longer, sizeof longer), "bytes after the packet");
        (void)!wolfaren_filter_matches_other(&filter);
        (void)!wolfaren_filter_matches(&filter, NULL, 0);
    }
}

/* A test that the packet meets, and one that it doesn't meet. */
#define MET .kind = WOLFAREN_TEST_FLAGS, .number = 1 << WOLFAREN_FLAG_IPV4
#define UNMET .kind = WOLFAREN_TEST_FLAGS, .number = 1 << WOLFAREN_FLAG_IPV6

/* Programs that no text has. */
static void programs(void)
{
    static const struct {
        const char *what;
        bool passes;
        struct wolfaren_filter filter;
    } rows[] = {
        {"no tests", false, {0, {{MET, .if_met = 64, .if_not = 64}}}},
        {"index 64 passes", true, {1, {{MET, .if_met = 64, .if_not = 65}}}},
        {"index 65 doesn't pass", false, {1, {{MET, .if_met = 65, .if_not = 64}}}},
        {"a test that isn't met", true, {1, {{UNMET, .if_met = 65, .if_not = 64}}}},
        {"a jump over a test", true, {3, {{MET, .if_met = 2}, {MET}, {UNMET, .if_not = 64}}}},
        {"a jump to the test itself", false, {2, {{MET, .if_met = 1}, {MET, .if_met = 1, .if_not = 64}}}},
        {"a jump back", false, {3, {{MET, .if_met = 2}, {MET, .if_met = 64}, {MET, .if_met = 1, .if_not = 64}}}},
        {"a jump past the end", false, {2, {{MET, .if_met = 2}, {MET, .if_met = 64}, {MET, .if_met = 64}}}},
        {"a jump to index 255", false, {1, {{MET, .if_met = 255, .if_not = 64}}}},
        {"the unknown kind 0", true, {1, {{.if_met = 65, .if_not = 64}}}},
        {"the unknown kind 26", true, {1, {{.kind = 26, .if_met = 65, .if_not = 64}}}},
        {"an unknown comparison", true, {1, {{.kind = WOLFAREN_TEST_PAYLOAD, .comparison = 7, .if_not = 64}}}},
        {"an unknown version", true, {1, {{.kind = WOLFAREN_TEST_EITHER, .version = 5, .if_not = 64}}}},
        {"one of two flags", true,
         {1, {{.kind = WOLFAREN_TEST_FLAGS, .number = 1ull << 51 | 1ull << 60, .if_met = 64}}}},
        {"no flags", true, {1, {{.kind = WOLFAREN_TEST_FLAGS, .if_not = 64}}}},
        {"a protocol", true, {1, {{.kind = WOLFAREN_TEST_LEADS_TO, .number = 6, .if_met = 64}}}},
        {"a protocol number above 255", true, {1, {{.kind = WOLFAREN_TEST_LEADS_TO, .number = 262, .if_not = 64}}}},
        {"a security parameters index above 32 bits", true,
         {1, {{.kind = WOLFAREN_TEST_SECURITY_PARAMETERS, .number = 258 + (1ull << 32), .if_not = 64}}}},
        {"an IPv4 address above 32 bits", true,
         {1, {{.kind = WOLFAREN_TEST_SOURCE, .version = 4, .address_low = 1ull << 32, .if_not = 64}}}},
        {"the stated length", true,
         {1, {{.kind = WOLFAREN_TEST_LENGTH, .comparison = WOLFAREN_EQUAL, .number = 34, .if_met = 64}}}},
        {"a time to live", true,
         {1, {{.kind = WOLFAREN_TEST_HOP_LIMIT, .comparison = WOLFAREN_LESS, .number = 65, .if_met = 64}}}},
        {"a code point", true,
         {1, {{.kind = WOLFAREN_TEST_DSCP, .comparison = WOLFAREN_NOT_EQUAL, .if_not = 64}}}},
        {"no congestion", true, {1, {{.kind = WOLFAREN_TEST_ECN, .comparison = WOLFAREN_AT_MOST, .if_met = 64}}}},
        {"no flow label", true,
         {1, {{.kind = WOLFAREN_TEST_FLOW_LABEL, .comparison = WOLFAREN_AT_LEAST, .if_not = 64}}}},
        {"the source port", true,
         {1, {{.kind = WOLFAREN_TEST_SOURCE_PORT, .number = 2313, .address_low = 2313, .if_met = 64}}}},
        {"lower ports", true, {1, {{.kind = WOLFAREN_TEST_SOURCE_PORT, .address_low = 2312, .if_not = 64}}}},
        {"an empty range of ports", true,
         {1, {{.kind = WOLFAREN_TEST_PORT, .number = 2314, .address_low = 2313, .if_not = 64}}}},
        {"ports above 65535", true,
         {1, {{.kind = WOLFAREN_TEST_PORT, .number = 2313, .address_low = UINT64_MAX, .if_met = 64}}}},
        {"no destination port", true,
         {1, {{.kind = WOLFAREN_TEST_DESTINATION_PORT, .address_low = 65535, .if_not = 64}}}},
        {"too few bytes for TCP", true, {1, {{.kind = WOLFAREN_TEST_NO_TRANSPORT, .if_met = 64}}}},
        {"a length", true, {1, {{.kind = WOLFAREN_TEST_NO_LENGTH, .if_not = 64}}}},
        {"no type of ICMP", true, {1, {{.kind = WOLFAREN_TEST_ICMP_TYPE, .number = 9, .if_not = 64}}}},
        {"no code of ICMP", true, {1, {{.kind = WOLFAREN_TEST_ICMP_CODE, .number = 9, .if_not = 64}}}},
        {"no flags of TCP", true, {1, {{.kind = WOLFAREN_TEST_TCP_FLAGS, .if_not = 64}}}},
    };
    for (size_t i = 0; i < sizeof rows / sizeof *rows; i++)
        check(wolfaren_filter_matches(&rows[i].filter, IPV4, sizeof IPV4) == rows[i].passes, rows[i].what);
}

/* A program as long as can be, which leads from each test to the next one. */
static void longest(void)
{
    struct wolfaren_filter filter = {0};
    for (size_t i = 0; i < WOLFAREN_FILTER_TESTS; i++)
        filter.tests[i] = (struct wolfaren_filter_test){MET, .if_met = (uint8_t)(i + 1)};
    static const size_t counts[] = {63, 64, 65, SIZE_MAX};
    for (size_t i = 0; i < sizeof counts / sizeof *counts; i++) {
        filter.count = counts[i];
        check(wolfaren_filter_matches(&filter, IPV4, sizeof IPV4) == (counts[i] >= 64), "only 64 tests count");
    }
}

/* Each term of a text is one test. That of the network needs only the base header, so it comes first; the others keep the text's order. */
static void parsed_program(void)
{
    struct wolfaren_filter filter;
    struct wolfaren_filter_error error;
    check(parse("not (fragment and payload > 5) or dst 192.0.2.0/24", &filter, &error), "a text");
    const struct wolfaren_filter_test *tests = filter.tests;
    check(filter.count == 3, "three terms are three tests");
    check(tests[0].kind == WOLFAREN_TEST_DESTINATION && tests[0].version == 4 && tests[0].prefix_len == 24
              && tests[0].address_low == 0xc0000200, "dst");
    check(tests[0].if_met == WOLFAREN_FILTER_PASSED && tests[0].if_not == 1, "where dst leads");
    check(tests[1].kind == WOLFAREN_TEST_FLAGS && tests[1].number == 3 << WOLFAREN_FLAG_FIRST_FRAGMENT, "fragment");
    check(tests[1].if_met == 2 && tests[1].if_not == WOLFAREN_FILTER_PASSED, "where fragment leads");
    check(tests[2].kind == WOLFAREN_TEST_PAYLOAD && tests[2].comparison == WOLFAREN_GREATER && tests[2].number == 5,
          "payload");
    check(tests[2].if_met > WOLFAREN_FILTER_PASSED && tests[2].if_not == WOLFAREN_FILTER_PASSED, "where payload leads");
}

/* Returns the only test of a text. */
static struct wolfaren_filter_test parsed_test(const char *text)
{
    struct wolfaren_filter filter;
    struct wolfaren_filter_error error;
    check(parse(text, &filter, &error) && filter.count == 1, text);
    return filter.tests[0];
}

/* The kind, the number and the other end of the range of each term. */
static void parsed_tests(void)
{
    static const struct {
        const char *text;
        uint8_t kind;
        uint64_t number, address_low;
    } rows[] = {
        {"ip", WOLFAREN_TEST_FLAGS, 1 << WOLFAREN_FLAG_IPV4, 0},
        {"ip6", WOLFAREN_TEST_FLAGS, 1 << WOLFAREN_FLAG_IPV6, 0},
        {"dccp", WOLFAREN_TEST_LEADS_TO, 33, 0},
        {"leads-to udp-lite", WOLFAREN_TEST_LEADS_TO, 136, 0},
        {"length > 1280", WOLFAREN_TEST_LENGTH, 1280, 0},
        {"hop-limit = 255", WOLFAREN_TEST_HOP_LIMIT, 255, 0},
        {"ttl = 255", WOLFAREN_TEST_HOP_LIMIT, 255, 0},
        {"dscp != 46", WOLFAREN_TEST_DSCP, 46, 0},
        {"ecn = 3", WOLFAREN_TEST_ECN, 3, 0},
        {"flow <= 0xfffff", WOLFAREN_TEST_FLOW_LABEL, 0xfffff, 0},
        {"src port 53", WOLFAREN_TEST_SOURCE_PORT, 53, 53},
        {"dst port 1024-65535", WOLFAREN_TEST_DESTINATION_PORT, 1024, 65535},
        {"port 0-1", WOLFAREN_TEST_PORT, 0, 1},
        {"no-transport", WOLFAREN_TEST_NO_TRANSPORT, 0, 0},
        {"no-length", WOLFAREN_TEST_NO_LENGTH, 0, 0},
        {"ip[6:2] & 0x1fff = 5", WOLFAREN_TEST_BASE_ACCESS, 5, 0x1fff},
        {"tcp[tcpflags] & (tcp-syn|tcp-ack) = 2", WOLFAREN_TEST_TRANSPORT_ACCESS, 2, 0x12},
        {"icmp-type 128", WOLFAREN_TEST_ICMP_TYPE, 128, 0},
        {"icmp-code 255", WOLFAREN_TEST_ICMP_CODE, 255, 0},
        {"icmp6-type 128", WOLFAREN_TEST_ICMP6_TYPE, 128, 0},
        {"icmp6-type icmp6-redirect", WOLFAREN_TEST_ICMP6_TYPE, 137, 0},
        {"icmp-type icmp-redirect", WOLFAREN_TEST_ICMP_TYPE, 5, 0},
        {"icmp6-code 255", WOLFAREN_TEST_ICMP6_CODE, 255, 0},
        {"icmp", WOLFAREN_TEST_VERSION_LEADS_TO, 1, 0},
        {"icmp6", WOLFAREN_TEST_VERSION_LEADS_TO, 58, 0},
        {"leads-to icmp6", WOLFAREN_TEST_LEADS_TO, 58, 0},
        {"option 0xc2", WOLFAREN_TEST_OPTION, 0xc2, 0},
        {"routing-type 4", WOLFAREN_TEST_ROUTING_TYPE, 4, 0},
        {"segments-left > 3", WOLFAREN_TEST_SEGMENTS_LEFT, 3, 0},
        {"tcp-flags cwr,fin", WOLFAREN_TEST_TCP_FLAGS, 0x81, 0x81},
        {"tcp-flags syn/syn,ack", WOLFAREN_TEST_TCP_FLAGS, 2, 0x12},
        {"truncated routing", WOLFAREN_TEST_LAYER, WOLFAREN_ROUTING_HEADER, 1 << WOLFAREN_FLAG_TRUNCATED},
        {"fault zero-length authentication", WOLFAREN_TEST_LAYER, WOLFAREN_AUTHENTICATION_HEADER,
         1 << WOLFAREN_FLAG_ZERO_PAYLOAD_LEN},
        {"host 192.0.2.1", WOLFAREN_TEST_EITHER, 0, 0xc0000201},
    };
    for (size_t i = 0; i < sizeof rows / sizeof *rows; i++) {
        struct wolfaren_filter_test test = parsed_test(rows[i].text);
        check(test.kind == rows[i].kind && test.number == rows[i].number, rows[i].text);
        check(test.address_low == rows[i].address_low, rows[i].text);
    }
}

/* An IPv6 header with differentiated services code point 46, congestion bits 1, flow label 0xcdef1 and hop limit 9. */
#define IPV6(len, next_header) 0x6b, 0x9c, 0xde, 0xf1, 0, len, next_header, 9, 0, 0, 0, 0, 0, 0, 0, 0, 0, 0, 0, 0, 0, 0, \
    0, 0, 0, 0, 0, 0, 0, 0, 0, 0, 0, 0, 0, 0, 0, 0, 0, 0

/* From port 443 to port 50000: a first fragment, with destination options. */
static const uint8_t SEGMENT[] = {IPV6(20, 60), 44, 0, 1, 4, 0, 0, 0, 0, 6, 0, 0, 1, 0, 0, 0, 7, 1, 0xbb, 0xc3, 0x50};

/* An echo request of code 7, with an authentication header. */
static const uint8_t ECHO[] = {IPV6(14, 51), 58, 1, 0, 0, 0, 0, 1, 2, 0, 0, 0, 3, 128, 7};

/* A segment with the flags ACK, SYN and ECE, after destination options. */
static const uint8_t OPENING[] = {IPV6(28, 60), 6, 0, 1, 4, 0, 0, 0, 0, 1, 0xbb, 0xc3, 0x50, 0, 0, 0, 0, 0, 0, 0, 0, 0x50, 0x52,
                                  0, 0, 0, 0, 0, 0};

/* Two routing headers: of type 2 with 1 segment left, and of type 0 with 5. */
static const uint8_t ROUTED[] = {IPV6(16, 43), 43, 0, 2, 1, 0, 0, 0, 0, 59, 0, 0, 5, 0, 0, 0, 0};

/* Each routing header is asked. */
static void routing(void)
{
    static const struct {
        const char *text;
        bool matches;
    } rows[] = {
        {"routing-type 2", true},     {"routing-type 0", true},       {"routing-type 1", false},
        {"routing-type 5", false},    {"segments-left = 1", true},    {"segments-left = 5", true},
        {"segments-left > 5", false}, {"segments-left < 2", true},    {"segments-left = 0", false},
        {"segments-left = 2", false}, {"segments-left != 5", true},
    };
    for (size_t i = 0; i < sizeof rows / sizeof *rows; i++) {
        struct wolfaren_filter filter;
        struct wolfaren_filter_error error;
        check(parse(rows[i].text, &filter, &error), rows[i].text);
        check(wolfaren_filter_matches(&filter, ROUTED, sizeof ROUTED) == rows[i].matches, rows[i].text);
    }
}

/* Hop-by-hop options: Pad1, router alert, Pad1; and destination options: of type 30, and a malformed one before Pad1. */
static const uint8_t OPTIONS[] = {IPV6(16, 0), 60, 0, 0, 5, 2, 0, 9, 0, 59, 0, 30, 0, 31, 3, 0, 0};

/* Options up to a malformed one. */
static void options(void)
{
    static const struct {
        const char *text;
        bool matches;
    } rows[] = {
        {"option 0 and option 5 and option 30", true},
        {"option 31 or option 2 or option 9", false},
        {"option 1 or option 3 or option 59", false},
    };
    for (size_t i = 0; i < sizeof rows / sizeof *rows; i++) {
        struct wolfaren_filter filter;
        struct wolfaren_filter_error error;
        check(parse(rows[i].text, &filter, &error), rows[i].text);
        check(wolfaren_filter_matches(&filter, OPTIONS, sizeof OPTIONS) == rows[i].matches, rows[i].text);
    }
}

/* Returns the processor time of many matches of a packet with 1,023 options, none of which the text names. */
static clock_t time_of_options(const char *text)
{
    static uint8_t packet[40 + 2048] = {0x60, 0, 0, 0, 8, 0, 0, 64};
    packet[40] = 59;
    packet[41] = 255;
    for (size_t i = 42; i < sizeof packet; i += 2) packet[i] = 1; /* PadN without data (RFC 8200, section 4.2) */
    struct wolfaren_filter filter;
    struct wolfaren_filter_error error;
    check(parse(text, &filter, &error), text);
    clock_t least = 0;
    for (int run = 0; run < 5; run++) {
        clock_t start = clock();
        for (int i = 0; i < 500; i++) check(!wolfaren_filter_matches(&filter, packet, sizeof packet), text);
        clock_t taken = clock() - start;
        if (run == 0 || taken < least) least = taken;
    }
    return least;
}

/* Options are walked once, however many terms ask for one: 64 terms take a few times as long as one, not 64 times. */
static void many_options(void)
{
    char text[64 * 16] = "option 2";
    for (unsigned type = 3; type < 66; type++) snprintf(text + strlen(text), 16, " or option %u", type);
    check(time_of_options(text) < 16 * (time_of_options("option 2") + 1), "64 terms about options");
}

/* Two fragment headers: of a first fragment with identification 7, and of a middle one with identification 9. */
static const uint8_t TWICE[] = {IPV6(16, 44), 44, 0, 0, 1, 0, 0, 0, 7, 17, 0, 3, 0x21, 0, 0, 0, 9};

/* Each fragment header is asked. */
static void two_fragment_headers(void)
{
    static const struct {
        const char *text;
        bool matches;
    } rows[] = {
        {"fragment and first-fragment and later-fragment", true},
        {"id 7 and id 9", true},
        {"id 8 or not fragment", false},
    };
    for (size_t i = 0; i < sizeof rows / sizeof *rows; i++) {
        struct wolfaren_filter filter;
        struct wolfaren_filter_error error;
        check(parse(rows[i].text, &filter, &error), rows[i].text);
        check(wolfaren_filter_matches(&filter, TWICE, sizeof TWICE) == rows[i].matches, rows[i].text);
    }
}

/* Flags of TCP after extension headers. */
static void tcp_flags(void)
{
    static const struct {
        const char *text;
        bool matches;
    } rows[] = {
        {"tcp-flags syn", true},           {"tcp-flags ack,syn", true},
        {"tcp-flags syn/syn,fin", true},   {"tcp-flags ece,syn,ack/fin,syn,rst,psh,ack,urg,ece,cwr", true},
        {"tcp-flags syn/syn,ack", false},  {"tcp-flags fin", false},
        {"tcp-flags syn,cwr", false},      {"tcp-flags urg or tcp-flags psh or tcp-flags rst", false},
    };
    for (size_t i = 0; i < sizeof rows / sizeof *rows; i++) {
        struct wolfaren_filter filter;
        struct wolfaren_filter_error error;
        check(parse(rows[i].text, &filter, &error), rows[i].text);
        check(wolfaren_filter_matches(&filter, OPENING, sizeof OPENING) == rows[i].matches, rows[i].text);
        check(!wolfaren_filter_matches(&filter, SEGMENT, sizeof SEGMENT), "a segment that is too short");
    }
}

/* Ports and ICMP messages after extension headers. */
static void upper_layers(void)
{
    static const struct {
        const char *text;
        bool is_of_segment, is_of_echo;
    } rows[] = {
        {"src port 443 and dst port 50000 and first-fragment", true, false},
        {"port 443 or icmp6-type 128", true, true},
        {"icmp or icmp-type 128 or icmp-code 7", false, false},
        {"port 1-442 or port 444-49999 or port 50001-65535 or no-length", false, false},
        {"no-transport", true, true},
        {"icmp6-type 128 and icmp6-code 7 and icmp6", false, true},
        {"dscp = 46 and ecn = 1 and flow = 0xcdef1 and hop-limit = 9", true, true},
        {"length = 60 or length = 54", true, true},
    };
    for (size_t i = 0; i < sizeof rows / sizeof *rows; i++) {
        struct wolfaren_filter filter;
        struct wolfaren_filter_error error;
        check(parse(rows[i].text, &filter, &error), rows[i].text);
        check(wolfaren_filter_matches(&filter, SEGMENT, sizeof SEGMENT) == rows[i].is_of_segment, rows[i].text);
        check(wolfaren_filter_matches(&filter, ECHO, sizeof ECHO) == rows[i].is_of_echo, rows[i].text);
    }
}

/* What a filter says of a frame of 100 bytes, of which this was found, with the packet or without one. */
static void check_frame(const char *text, const struct wolfaren_frame *found, bool matches, bool matches_empty)
{
    struct wolfaren_filter filter;
    struct wolfaren_filter_error error;
    struct wolfaren_frame empty = *found;
    empty.end = WOLFAREN_FRAME_OTHER;
    check(parse(text, &filter, &error), text);
    check(wolfaren_filter_matches_frame(&filter, found, 100, IPV4, sizeof IPV4) == matches, text);
    check(wolfaren_filter_matches_frame(&filter, &empty, 100, IPV4, sizeof IPV4) == matches_empty, text);
    check(wolfaren_filter_matches_frame(&filter, &empty, 100, NULL, 0) == matches_empty, text);
}

/* Terms that ask the frame: two VLAN tags, as wolfaren_find_ip finds them, and numbers that aren't EtherTypes. */
static void frames(void)
{
    static const uint8_t tagged[] = {2, 0, 0, 0, 0, 1, 2, 0, 0, 0, 0, 2, 0x88, 0xa8, 0x60, 5, 0x81, 0, 0x0f, 0xff, 8, 0, 0x45};
    struct wolfaren_frame found;
    check(wolfaren_find_ip(1, tagged, sizeof tagged, &found) && found.offset == 22, "the headers of a frame");
    check_frame("vlan and vlan 5 and vlan 4095", &found, true, true);
    check_frame("vlan 0 or vlan 1 or arp or mismatched", &found, false, false);
    check_frame("less 100 and greater 100", &found, true, true);
    check_frame("less 99 or greater 101", &found, false, false);
    check_frame("vlan 5 and first-fragment and tcp", &found, true, false);
    check_frame("header ah and less 100", &found, true, false);
    check_frame("version 6 or not vlan", &found, false, false);
    found.version = 6;
    check_frame("mismatched", &found, true, false);
    found.number = 0x0806;
    check_frame("arp", &found, true, true);
    found.number += 65536;
    check_frame("arp", &found, false, false);
    found = (struct wolfaren_frame){.number_kind = WOLFAREN_PPP, .number = 0x0806, .first_vlan = 5, .second_vlan = 5};
    check_frame("arp or vlan or vlan 5 or mismatched", &found, false, false);
    found.vlan_count = 1;
    found.second_vlan = 6;
    check_frame("vlan 5 and not vlan 6", &found, true, true);
    check_matches("less 34 and greater 34 and not (vlan or vlan 0 or arp or mismatched)", true, false);
    check_matches("less 33 or greater 35", false, false);
}

int main(void)
{
    texts();
    frames();
    refused();
    any_contents();
    programs();
    longest();
    parsed_program();
    parsed_tests();
    upper_layers();
    tcp_flags();
    routing();
    two_fragment_headers();
    options();
    many_options();
    return 0;
}
