#include "conditions/condition_text.h"

#include <stdio.h>

#include "conditions/network.h"

#define FLAG(number) (UINT64_C(1) << (number))

#define COUNT(array) (sizeof(array) / sizeof *(array))

enum { TERM_WIDTH = 32, INDEX_ROOM = 24 };

/* The numbers of ICMP and ICMPv6. */
enum { ICMP = 1, ICMP6 = 58 };

/* The EtherType of ARP. */
enum { ARP = 0x0806 };

/* The terms for flags. A term for several flags precedes those for each of them. */
static const struct {
    uint64_t flags;
    const char *term;
} flag_terms[] = {
    {FLAG(WOLFAREN_FLAG_IPV4), "version 4"},
    {FLAG(WOLFAREN_FLAG_IPV6), "version 6"},
    {FLAG(WOLFAREN_HOP_BY_HOP), "header 0"},
    {FLAG(WOLFAREN_ROUTING), "header 43"},
    {FLAG(WOLFAREN_FRAGMENT), "header 44"},
    {FLAG(WOLFAREN_AUTHENTICATION), "header 51"},
    {FLAG(WOLFAREN_DESTINATION_OPTIONS), "header 60"},
    {FLAG(WOLFAREN_FLAG_FIRST_FRAGMENT) | FLAG(WOLFAREN_FLAG_LATER_FRAGMENT), "fragment"},
    {FLAG(WOLFAREN_FLAG_FIRST_FRAGMENT), "first-fragment"},
    {FLAG(WOLFAREN_FLAG_LATER_FRAGMENT), "later-fragment"},
    {FLAG(WOLFAREN_FLAG_TRUNCATED), "truncated"},
    {FLAG(WOLFAREN_FLAG_INCOMPLETE), "incomplete"},
    {FLAG(WOLFAREN_FLAG_TOO_SHORT) | FLAG(WOLFAREN_FLAG_HOP_BY_HOP_NOT_AT_START) | FLAG(WOLFAREN_FLAG_ZERO_PAYLOAD_LEN)
         | FLAG(WOLFAREN_FLAG_UNSUPPORTED_IP_VERSION) | FLAG(WOLFAREN_FLAG_IPV4_HEADER_LENGTH), "fault"},
    {FLAG(WOLFAREN_FLAG_TOO_SHORT), "fault too-short"},
    {FLAG(WOLFAREN_FLAG_HOP_BY_HOP_NOT_AT_START), "fault not-at-start"},
    {FLAG(WOLFAREN_FLAG_ZERO_PAYLOAD_LEN), "fault zero-length"},
    {FLAG(WOLFAREN_FLAG_UNSUPPORTED_IP_VERSION), "fault unsupported-version"},
    {FLAG(WOLFAREN_FLAG_IPV4_HEADER_LENGTH), "fault header-length"},
};

static const char *const comparisons[] = {
    [WOLFAREN_EQUAL] = "=",    [WOLFAREN_NOT_EQUAL] = "!=", [WOLFAREN_LESS] = "<",
    [WOLFAREN_AT_MOST] = "<=", [WOLFAREN_GREATER] = ">",    [WOLFAREN_AT_LEAST] = ">=",
};

/* The flags of TCP, from the low bit of their byte up. */
static const char *const tcp_flags[] = {"fin", "syn", "rst", "psh", "ack", "urg", "ece", "cwr"};

/* Prints the word for a test that no packet meets, and returns the length. */
static int print_never(void)
{
    return printf("never");
}

/* Prints the terms for flags, each followed by a layer if it isn't empty, and returns the length. */
static int print_flag_terms(uint64_t left, const char *layer)
{
    int len = 0;
    for (size_t i = 0; i < COUNT(flag_terms); i++) {
        uint64_t flags = flag_terms[i].flags;
        if ((left & flags) != flags) continue;
        len += printf("%s%s%s%s", len ? " or " : "", flag_terms[i].term, *layer ? " " : "", layer);
        left &= ~flags;
    }
    return len ? len : print_never();
}

/* Prints the terms of which one has to hold, and returns the length. */
static int print_flags(const char *word, const struct wolfaren_filter_test *test)
{
    (void)word;
    return print_flag_terms(test->number, "");
}

/* Prints the terms of which one has to hold for an error in a layer, and returns the length. */
static int print_layer(const char *word, const struct wolfaren_filter_test *test)
{
    const char *layer = test->number <= UINT8_MAX ? wolfaren_layer_word((uint8_t)test->number) : "";
    (void)word;
    return *layer ? print_flag_terms(test->address_low, layer) : print_never();
}

static int print_word(const char *word, const struct wolfaren_filter_test *test)
{
    (void)test;
    return printf("%s", word);
}

static int print_number(const char *word, const struct wolfaren_filter_test *test)
{
    return printf("%s %llu", word, (unsigned long long)test->number);
}

static int print_count(const char *word, const struct wolfaren_filter_test *test)
{
    const char *comparison = test->comparison < COUNT(comparisons) ? comparisons[test->comparison] : NULL;
    return comparison ? printf("%s %s %llu", word, comparison, (unsigned long long)test->number) : print_never();
}

/* Prints what follows the headers of a packet of one version. */
static int print_protocol(const char *word, const struct wolfaren_filter_test *test)
{
    (void)word;
    if (test->version == 4 && test->number == ICMP) return printf("icmp");
    if (test->version == 6 && test->number == ICMP6) return printf("icmp6");
    return printf("version %u and leads-to %llu", test->version, (unsigned long long)test->number);
}

/* Prints a port, or a range of ports. */
static int print_ports(const char *word, const struct wolfaren_filter_test *test)
{
    int len = print_number(word, test);
    if (test->address_low == test->number) return len;
    return len + printf("-%llu", (unsigned long long)test->address_low);
}

/* Prints the names of flags of TCP, from the low bit up, with commas between. */
static int print_tcp_names(uint64_t flags)
{
    int len = 0;
    for (size_t i = 0; i < COUNT(tcp_flags); i++)
        if (flags >> i & 1) len += printf("%s%s", len ? "," : "", tcp_flags[i]);
    return len;
}

/* Prints flags of TCP that are set, and after a slash all that count if there are others. */
static int print_tcp_flags(const char *word, const struct wolfaren_filter_test *test)
{
    int len = printf("%s ", word) + print_tcp_names(test->number);
    if (test->address_low == test->number) return len;
    return len + printf("/") + print_tcp_names(test->address_low);
}

/* Prints bytes of the packet and how they compare: from the base header on, if `word` is empty, or from a protocol's header. */
static int print_access(const char *word, const struct wolfaren_filter_test *test)
{
    const char *comparison = test->comparison < COUNT(comparisons) ? comparisons[test->comparison] : NULL;
    const char *name = *word ? wolfaren_number_word(test->version) : test->version == 4 ? "ip" : "ip6";
    if (!comparison) return print_never();
    int len = printf("%s[%llu", name, (unsigned long long)test->address_high);
    if (test->prefix_len > 1) len += printf(":%u", test->prefix_len);
    len += printf("]");
    if (test->address_low != UINT32_MAX) len += printf(" & 0x%llx", (unsigned long long)test->address_low);
    return len + printf(" %s %llu", comparison, (unsigned long long)test->number);
}

/* Prints how a length on the wire compares: at most or at least, as terms ask it. */
static int print_wire_length(const char *word, const struct wolfaren_filter_test *test)
{
    (void)word;
    if (test->comparison != WOLFAREN_AT_MOST && test->comparison != WOLFAREN_AT_LEAST) return print_never();
    return print_number(test->comparison == WOLFAREN_AT_MOST ? "less" : "greater", test);
}

/* Prints an EtherType, of which there is a term for ARP alone. */
static int print_ether_type(const char *word, const struct wolfaren_filter_test *test)
{
    (void)word;
    return test->number == ARP ? printf("arp") : print_never();
}

static int print_network(const char *word, const struct wolfaren_filter_test *test)
{
    char text[NETWORK_ROOM];
    write_network(test, text);
    return printf("%s %s", word, text);
}

/* How each kind of test is printed: by a function, which returns the length, with the word for the kind. */
static const struct {
    int (*print)(const char *word, const struct wolfaren_filter_test *test);
    const char *word;
} kinds[] = {
    [WOLFAREN_TEST_FLAGS] = {print_flags, ""},
    [WOLFAREN_TEST_LEADS_TO] = {print_number, "leads-to"},
    [WOLFAREN_TEST_HEADERS] = {print_count, "headers"},
    [WOLFAREN_TEST_CHAIN_BYTES] = {print_count, "chain-bytes"},
    [WOLFAREN_TEST_PAYLOAD] = {print_count, "payload"},
    [WOLFAREN_TEST_SECURITY_PARAMETERS] = {print_number, "spi"},
    [WOLFAREN_TEST_IDENTIFICATION] = {print_number, "id"},
    [WOLFAREN_TEST_SOURCE] = {print_network, "src"},
    [WOLFAREN_TEST_DESTINATION] = {print_network, "dst"},
    [WOLFAREN_TEST_EITHER] = {print_network, "net"},
    [WOLFAREN_TEST_LENGTH] = {print_count, "length"},
    [WOLFAREN_TEST_HOP_LIMIT] = {print_count, "hop-limit"},
    [WOLFAREN_TEST_DSCP] = {print_count, "dscp"},
    [WOLFAREN_TEST_ECN] = {print_count, "ecn"},
    [WOLFAREN_TEST_FLOW_LABEL] = {print_count, "flow"},
    [WOLFAREN_TEST_SOURCE_PORT] = {print_ports, "src port"},
    [WOLFAREN_TEST_DESTINATION_PORT] = {print_ports, "dst port"},
    [WOLFAREN_TEST_PORT] = {print_ports, "port"},
    [WOLFAREN_TEST_NO_TRANSPORT] = {print_word, "no-transport"},
    [WOLFAREN_TEST_ICMP_TYPE] = {print_number, "icmp-type"},
    [WOLFAREN_TEST_ICMP_CODE] = {print_number, "icmp-code"},
    [WOLFAREN_TEST_TCP_FLAGS] = {print_tcp_flags, "tcp-flags"},
    [WOLFAREN_TEST_ROUTING_TYPE] = {print_number, "routing-type"},
    [WOLFAREN_TEST_SEGMENTS_LEFT] = {print_count, "segments-left"},
    [WOLFAREN_TEST_OPTION] = {print_number, "option"},
    [WOLFAREN_TEST_LAYER] = {print_layer, ""},
    [WOLFAREN_TEST_VERSION_LEADS_TO] = {print_protocol, ""},
    [WOLFAREN_TEST_ICMP6_TYPE] = {print_number, "icmp6-type"},
    [WOLFAREN_TEST_ICMP6_CODE] = {print_number, "icmp6-code"},
    [WOLFAREN_TEST_NO_LENGTH] = {print_word, "no-length"},
    [WOLFAREN_TEST_BASE_ACCESS] = {print_access, ""},
    [WOLFAREN_TEST_TRANSPORT_ACCESS] = {print_access, "protocol"},
    [WOLFAREN_TEST_WIRE_LENGTH] = {print_wire_length, ""},
    [WOLFAREN_TEST_VLAN] = {print_word, "vlan"},
    [WOLFAREN_TEST_VLAN_OF] = {print_number, "vlan"},
    [WOLFAREN_TEST_ETHER_TYPE] = {print_ether_type, ""},
    [WOLFAREN_TEST_MISMATCHED] = {print_word, "mismatched"},
};

/* Prints a test, and returns the length. No packet meets a test of an unknown kind. */
static int print_test(const struct wolfaren_filter_test *test)
{
    if (test->kind >= COUNT(kinds) || !kinds[test->kind].print) return print_never();
    return kinds[test->kind].print(kinds[test->kind].word, test);
}

/* Writes the index of a test, or what another index means. */
static void write_index(size_t index, size_t count, char text[INDEX_ROOM])
{
    if (index < count)
        snprintf(text, INDEX_ROOM, "%zu", index);
    else
        snprintf(text, INDEX_ROOM, "%s", index == WOLFAREN_FILTER_PASSED ? "pass" : "refuse");
}

void print_program(const struct wolfaren_filter *filter)
{
    char if_met[INDEX_ROOM], if_not[INDEX_ROOM];
    for (size_t i = 0; i < filter->count; i++) {
        const struct wolfaren_filter_test *test = &filter->tests[i];
        printf("(%03zu) ", i);
        int len = print_test(test);
        write_index(test->if_met, filter->count, if_met);
        write_index(test->if_not, filter->count, if_not);
        printf("%*s jt %-6s jf %s\n", len < TERM_WIDTH ? TERM_WIDTH - len : 0, "", if_met, if_not);
    }
}
