#include "conditions/condition.h"

#include <netdb.h>
#include <netinet/in.h>
#include <stdio.h>
#include <stdlib.h>
#include <string.h>

#include "commands/arguments.h"
#include "commands/report.h"
#include "conditions/grouping.h"
#include "conditions/network.h"
#include "conditions/ranges.h"
#include "conditions/words.h"
#include "output/text.h"

/* The arguments, joined with spaces. */
struct text {
    char *bytes;
    size_t *ends; /* where each argument ends */
    int count;
    size_t *origins; /* where each byte comes from, or the byte that it stands for; null for the arguments themselves */
};

static void free_text(struct text *text)
{
    free(text->bytes);
    free(text->ends);
    free(text->origins);
}

/* Whether the text has what it needs. If memory ran out, frees the rest. */
static bool has_memory(struct text *text, bool needs_origins)
{
    if (text->bytes && text->ends && (text->origins || !needs_origins)) return true;
    free_text(text);
    return false;
}

/* Joins the arguments. Returns false if memory runs out. */
static bool join(struct text *text, int count, char *const *arguments)
{
    size_t len = 0;
    for (int i = 0; i < count; i++) len += strlen(arguments[i]) + 1;
    *text = (struct text){calloc(len, 1), calloc((unsigned)count, sizeof *text->ends), count, NULL};
    if (!has_memory(text, false)) return false;
    char *end = text->bytes;
    for (int i = 0; i < count; i++) {
        size_t size = strlen(arguments[i]);
        memcpy(end, arguments[i], size);
        end += size;
        text->ends[i] = (size_t)(end - text->bytes);
        *end++ = ' ';
    }
    return true;
}

/* How many digits a port has at most. */
enum { PORT_DIGITS = 5 };

/* Writes the port of the service with this name. Returns the number of digits, or 0 if there is no such service. */
static size_t write_port(const char *word, size_t len, char digits[PORT_DIGITS + 1])
{
    char name[64];
    if (len >= sizeof name) return 0;
    memcpy(name, word, len);
    name[len] = '\0';
    const struct servent *service = getservbyname(name, NULL);
    return service ? (size_t)snprintf(digits, PORT_DIGITS + 1, "%d", ntohs((uint16_t)service->s_port)) : 0;
}

/* The term that every packet meets, and what it stands for. */
static const char any[] = "any", any_packet[] = "(ip or not ip)";

/* Appends bytes to a text. They come from the byte at `origin` and those after it, or all stand for it. */
static void append(struct text *text, size_t *len, const char *bytes, size_t count, size_t origin, bool is_copied)
{
    memcpy(text->bytes + *len, bytes, count);
    for (size_t i = 0; i < count; i++) text->origins[(*len)++] = origin + (is_copied ? i : 0);
}

/* Copies a word, or if `is_port` is set the port of the service that it names. */
static void copy_word(struct text *text, size_t *len, const char *word, size_t size, size_t origin, bool is_port)
{
    char digits[PORT_DIGITS + 1];
    size_t port = is_port ? write_port(word, size, digits) : 0;
    append(text, len, port ? digits : word, port ? port : size, origin, port == 0);
}

/* Whether the word is one of these. */
static bool is_one_of(const char *word, size_t size, const char *const words[], size_t count)
{
    for (size_t i = 0; i < count; i++)
        if (is_word(word, size, words[i])) return true;
    return false;
}

/* The words after which an identifier is a port, and those after which one takes the qualifiers of the primitive before it. */
static const char *const port_words[] = {"port", "portrange"};
static const char *const joining_words[] = {"and", "or", "not", "(", "&&", "||", "!"};

/* Whether the word begins nothing in the library's filters, so it can only be an identifier. */
static bool is_identifier(const char *word, size_t size)
{
    struct wolfaren_filter filter;
    struct wolfaren_filter_error error;
    return !wolfaren_parse_filter(word, size, &filter, &error) && error.offset == 0;
}

/* What the words so far say of the next one. */
struct port_place {
    bool is_next;   /* it is a port */
    bool is_joined; /* it is one if it is an identifier */
    bool is_left;   /* the last qualifiers are those of a port */
};

/* Goes past a word, which is a port if `is_port` is set. */
static void pass_word(struct port_place *place, const char *word, size_t size, bool is_port)
{
    bool joins = is_one_of(word, size, joining_words, sizeof joining_words / sizeof *joining_words);
    place->is_next = is_one_of(word, size, port_words, sizeof port_words / sizeof *port_words);
    if (!is_port && !joins && !is_word(word, size, ")")) place->is_left = place->is_next;
    place->is_joined = joins && place->is_left;
}

/* Copies the words of the arguments, except those that the library's filters don't know. */
static void copy_words(struct text *text, const struct text *arguments)
{
    size_t end = arguments->ends[arguments->count - 1], len = 0;
    int argument = 0;
    struct port_place place = {false, false, false};
    for (size_t at = 0, size; at < end; at += size) {
        const char *word = arguments->bytes + at;
        while (arguments->ends[argument] <= at) text->ends[argument++] = len;
        size = word_len(word, end - at);
        bool is_any = is_word(word, size, any);
        bool is_port = place.is_next || (place.is_joined && !is_any && is_identifier(word, size));
        if (is_any) append(text, &len, any_packet, strlen(any_packet), at, false);
        else copy_word(text, &len, word, size, at, is_port);
        if (!is_space(*word)) pass_word(&place, word, size, is_port);
    }
    while (argument < text->count) text->ends[argument++] = len;
    text->origins[len] = end;
}

/* Makes a text for the library's filters. Returns false if memory runs out. */
static bool replace_words(struct text *text, const struct text *arguments)
{
    size_t len = arguments->ends[arguments->count - 1] + 1, count = (size_t)arguments->count;
    *text = (struct text){calloc(len, PORT_DIGITS), calloc(count, sizeof *text->ends), arguments->count,
                          calloc(len, PORT_DIGITS * sizeof *text->origins)};
    if (!has_memory(text, true)) return false;
    copy_words(text, arguments);
    return true;
}

/* Writes the condition, and a caret below the byte at an offset. */
static void show_place(const struct text *text, size_t offset)
{
    fputs("  ", stderr);
    size_t columns = write_columns(stderr, text->bytes, text->ends[text->count - 1], offset);
    fprintf(stderr, "\n  %*s^\n", (int)columns, "");
}

/* How long the name of an extension header is at most. */
enum { MOST_HEADER = 32 };

/* The number of ESP. */
enum { ESP = 50 };

/* Words of libpcap's expressions, and what is written instead of them. */
static const struct {
    const char *word;
    const char *ours;
} libpcap_words[] = {
    {"len", "length"},
    {"mask", "net ADDRESS/BITS"},
    {"multicast", "ip multicast, or ip6 multicast"},
    {"broadcast", "dst ADDRESS, such as dst 255.255.255.255"},
    {"protochain", "header N, or leads-to N"},
    {"ah", "header ah"},
    {"igmp", "leads-to 2"},
    {"pim", "leads-to 103"},
    {"vrrp", "leads-to 112"},
};

/* Words of libpcap's expressions about the link layer. */
static const char *const link_layer_words[] = {
    "ether", "fddi", "tr", "wlan", "link", "ppp", "slip", "rarp", "aarp", "atalk", "decnet", "iso", "clnp", "esis", "isis",
    "lat", "moprc", "mopdl", "stp", "ipx", "netbeui", "llc", "mpls", "pppoed", "pppoes", "gateway", "inbound",
    "outbound", "ifname", "on", "type", "subtype", "dir", "vpi", "vci", "lane",
};

/* Says what is written instead of `header` and a word, if that is a protocol, but no extension header of a packet. */
static void show_protocol(const char *word, size_t size)
{
    char text[MOST_HEADER + sizeof "leads-to "];
    struct wolfaren_filter filter;
    struct wolfaren_filter_error error;
    if (size == 0 || size >= MOST_HEADER) return;
    int len = snprintf(text, sizeof text, "leads-to %.*s", (int)size, word);
    if (!wolfaren_parse_filter(text, (size_t)len, &filter, &error)) return;
    bool is_esp = filter.tests[0].number == ESP;
    fprintf(stderr, "  `header` asks for an extension header; for %.*s, write `%s`\n", (int)size, word,
            is_esp ? "esp" : text);
}

/* Says what is written instead of a word of libpcap's expressions, or why nothing is. */
static void show_ours(const char *word, size_t size)
{
    for (size_t i = 0; i < sizeof libpcap_words / sizeof *libpcap_words; i++) {
        if (!is_word(word, size, libpcap_words[i].word)) continue;
        fprintf(stderr, "  for libpcap's `%s`, write `%s`\n", libpcap_words[i].word, libpcap_words[i].ours);
        return;
    }
    const char *bracket = memchr(word, '[', size);
    size_t name = bracket ? (size_t)(bracket - word) : size;
    if (is_one_of(word, name, link_layer_words, sizeof link_layer_words / sizeof *link_layer_words))
        fprintf(stderr, "  no term is libpcap's `%.*s`, which asks about the link layer\n", (int)name, word);
    else if (is_word(word, size, "geneve"))
        fputs("  libpcap's `geneve` asks about a packet in the payload, which no term does\n", stderr);
    else if (bracket)
        fputs("  bytes are read as by `tcp[13]` or `ip[2:2]`: 1, 2 or 4, at a constant offset\n", stderr);
    else if (size == 1 && strchr("+-*/%^", *word))
        fputs("  no term calculates with bytes\n", stderr);
    else if (size > 1 && size <= MOST_HEADER && word[0] == '\\')
        fprintf(stderr, "  for libpcap's `%.*s`, write `%.*s`\n", (int)size, word, (int)size - 1, word + 1);
}

/* Reports what the condition needs at a place. */
static void complain_of_condition(const struct text *text, uint8_t wanted, size_t offset)
{
    char expected[WOLFAREN_TEXT_ROOM];
    wolfaren_expected_text(wanted, expected, sizeof expected);
    size_t left = text->ends[text->count - 1] - offset;
    const char *word = text->bytes + offset;
    size_t size = left > 0 ? word_len(word, left) : 0;
    if (left == 0)
        complain("condition: expected %s, found the end", expected);
    else
        complain("condition: expected %s, found '%.*s' in column %zu", expected, size > 40 ? 40 : (int)size, word, offset + 1);
    show_place(text, offset);
    if (wanted == WOLFAREN_EXPECTED_HEADER)
        show_protocol(word, size);
    else
        show_ours(word, size);
}

/* Reports the networks that have bits set after their prefix, which are likely mistakes. Returns whether there are any. */
static bool has_host_bits(const struct wolfaren_filter *condition)
{
    bool is_any = false;
    for (size_t i = 0; i < condition->count; i++) {
        struct wolfaren_filter_test test = condition->tests[i];
        char given[NETWORK_ROOM], meant[NETWORK_ROOM];
        if (!is_network(&test)) continue;
        write_network(&test, given);
        if (!clear_host_bits(&test)) continue;
        write_network(&test, meant);
        complain("condition: the network %s has bits set after its prefix; %s is meant", given, meant);
        is_any = true;
    }
    return is_any;
}

/*
 * Parses as many arguments as are a condition, or all if `is_whole` is set, and returns their number. On a syntax error,
 * stores where the text of all arguments is wrong, and returns 0.
 */
static int take_condition(struct wolfaren_filter *condition, const struct text *text, bool is_whole,
                          struct wolfaren_filter_error *error)
{
    struct wolfaren_filter_error later;
    int taken = text->count;
    if (wolfaren_parse_filter(text->bytes, text->ends[taken - 1], condition, error)) return taken;
    if (is_whole) return 0;
    while (--taken > 0)
        if (wolfaren_parse_filter(text->bytes, text->ends[taken - 1], condition, &later)) break;
    /* The other arguments are file names only if the first of them can't go on with the condition. */
    return taken > 0 && error->offset == text->ends[taken - 1] + 1 ? taken : 0;
}

/* Reports that memory ran out, and returns the exit status. */
static int fail_on_memory(void)
{
    complain_of_memory();
    return STATUS_FAILED;
}

/* Reads the condition in the joined arguments, as `read_condition` does. */
static int read_joined(struct wolfaren_filter *condition, const struct text *joined, bool is_whole, int *taken)
{
    struct text text;
    struct wolfaren_filter_error error;
    if (!replace_words(&text, joined)) return fail_on_memory();
    *taken = take_condition(condition, &text, is_whole, &error);
    if (*taken == 0) complain_of_condition(joined, error.expected, text.origins[error.offset]);
    free_text(&text);
    if (*taken == 0 || has_host_bits(condition) || has_impossible(condition)) return STATUS_USAGE;
    return tell_grouping(joined->bytes, joined->ends[*taken - 1]) ? -1 : fail_on_memory();
}

int read_condition(struct wolfaren_filter *condition, int count, char *const *arguments, bool is_whole, int *taken)
{
    struct text joined;
    if (!join(&joined, count, arguments)) return fail_on_memory();
    int status = read_joined(condition, &joined, is_whole, taken);
    free_text(&joined);
    return status;
}

bool is_condition(int count, char *const *arguments)
{
    struct text joined, text;
    struct wolfaren_filter filter;
    struct wolfaren_filter_error error;
    if (!join(&joined, count, arguments)) return false;
    bool is_made = replace_words(&text, &joined);
    bool is_parsed = is_made && take_condition(&filter, &text, true, &error) > 0;
    if (is_made) free_text(&text);
    free_text(&joined);
    return is_parsed;
}
