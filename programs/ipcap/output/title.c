#include "output/title.h"

#include <time.h>

#include "counts/chain_text.h"
#include "packets/address.h"
#include "packets/details.h"

/* The year from which those of `struct tm` count. */
enum { EPOCH = 1900 };

/* Whether RFC 3339 has a form for a time, which then is stored as a date. Its years have four digits. */
static bool has_date(const struct timespec *time, struct tm *date)
{
    enum { FIRST_YEAR = 1000, LAST_YEAR = 9999 };
    if (!gmtime_r(&time->tv_sec, date)) return false;
    return date->tm_year >= FIRST_YEAR - EPOCH && date->tm_year <= LAST_YEAR - EPOCH;
}

/* Writes a byte, and a number of two digits. */
static void put_two_digits(struct writer *writer, char before, int number)
{
    put_byte(writer, before);
    put_digits(writer, (uint32_t)number, 2);
}

static void put_date(struct writer *writer, const struct tm *date)
{
    put_digits(writer, (uint32_t)(date->tm_year + EPOCH), 4);
    put_two_digits(writer, '-', date->tm_mon + 1);
    put_two_digits(writer, '-', date->tm_mday);
    put_two_digits(writer, 'T', date->tm_hour);
    put_two_digits(writer, ':', date->tm_min);
    put_two_digits(writer, ':', date->tm_sec);
}

/* Writes a number of seconds, which may be negative. */
static void put_seconds(struct writer *writer, int64_t seconds)
{
    if (seconds < 0) put_byte(writer, '-');
    put_number(writer, seconds < 0 ? -(uint64_t)seconds : (uint64_t)seconds);
}

void put_time(struct writer *writer, const struct capture *capture, const struct packet *packet)
{
    struct timespec time = packet->time;
    struct tm date;
    bool is_date = has_date(&time, &date), is_fine = has_nanoseconds(capture);
    if (is_date)
        put_date(writer, &date);
    else
        put_seconds(writer, time.tv_sec);
    put_byte(writer, '.');
    put_digits(writer, (uint32_t)(is_fine ? time.tv_nsec : time.tv_nsec / 1000), is_fine ? 9 : 6);
    if (is_date) put_byte(writer, 'Z');
}

uint32_t frame_len(const struct packet *packet)
{
    return packet->header.len > packet->header.caplen ? packet->header.len : packet->header.caplen;
}

static void put_addresses(struct writer *writer, const struct parts *parts)
{
    put_text(writer, ", ");
    put_address(writer, parts, false);
    put_port(writer, parts, false);
    put_text(writer, " > ");
    put_address(writer, parts, true);
    put_port(writer, parts, true);
}

/* Writes the chain of a packet that has more headers than a key. */
static void put_long_chain(struct writer *writer, const struct parts *parts)
{
    put_text(writer, parts->packet.version == 4 ? "IPv4 " : "IPv6 ");
    put_number(writer, parts->packet.headers);
    put_text(writer, " headers -> ");
    put_number(writer, parts->packet.payload_number);
}

static void put_chain(struct writer *writer, const struct parts *parts, const struct path *path)
{
    char text[CHAIN_TEXT_ROOM];
    if (parts->packet.version == 0) {
        put_text(writer, "unread base header");
    } else if (write_chain(path, parts, text)) {
        put_text(writer, text);
    } else {
        put_long_chain(writer, parts);
    }
}

/*
 * Writes how many bytes the frame has, and of a truncated one before that how many are there. In a tunnel, writes how many bytes
 * the tunnel carries.
 */
static void put_lengths(struct writer *writer, const struct packet *packet, bool is_inner)
{
    put_text(writer, ", ");
    if (packet->is_short && !is_inner) {
        put_number(writer, packet->header.caplen);
        put_text(writer, " of ");
    }
    put_number(writer, is_inner ? packet->header.caplen - packet->ip_offset : frame_len(packet));
    put_text(writer, " bytes");
}

void put_title(struct writer *writer, const struct capture *capture, const struct packet *packet,
               const struct parts *parts, const struct path *path)
{
    put_text(writer, "packet ");
    put_number(writer, capture->number);
    if (path->tunnels > 0) put_text(writer, ", tunnel ");
    if (path->tunnels > 0) put_number(writer, path->tunnels);
    put_text(writer, ": ");
    if (packet->has_time)
        put_time(writer, capture, packet);
    else
        put_text(writer, "no time");
    if (packet->is_ip && parts->packet.version != 0) put_addresses(writer, parts);
    put_lengths(writer, packet, path->tunnels > 0);
    if (packet->is_ip) {
        put_text(writer, ", IP at ");
        put_number(writer, packet->ip_offset);
        put_text(writer, ": ");
        put_chain(writer, parts, path);
        put_details(writer, parts);
    } else {
        put_text(writer, ", not IP");
        put_protocol(writer, &packet->protocol);
    }
    put_byte(writer, '\n');
}
