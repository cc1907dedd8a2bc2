/*
 * Times calls that write packets with other extension headers, beside a dissection of the same packet and a copy of it.
 *
 * usage: PROGRAM [ROUNDS JOB]
 *
 * The packets have 1 to 4 extension headers and payloads of 20 to 1,400 bytes. Without arguments, prints nanoseconds for each
 * packet of each job, the least of many rounds, and ratios to the copy. With arguments, does one job so many times for valgrind.
 */
#define _POSIX_C_SOURCE 199309L

#include "wolfaren.h"

#include <stdio.h>
#include <stdlib.h>
#include <string.h>
#include <time.h>

enum { PACKETS = 1024, MAX_PACKET = 2048, ROUNDS = 300 };

struct packet {
    size_t len;
    uint8_t bytes[MAX_PACKET];
};

static struct packet packets[PACKETS];
static uint8_t out[MAX_PACKET + 8];
static uint32_t state = 1;
static size_t total;

static uint32_t below(uint32_t limit)
{
    state = state * 1664525u + 1013904223u;
    return (state >> 16) % limit;
}

/* Appends a header of 8 to 24 bytes that leads to the next one. */
static void add_header(struct packet *packet, uint8_t number, uint8_t next)
{
    uint8_t *at = packet->bytes + packet->len;
    const uint8_t units = (uint8_t)below(3);
    at[0] = next;
    at[1] = units;
    if (number != 43) {
        at[2] = 1;
        at[3] = (uint8_t)(8 * units + 4);
    }
    packet->len += 8u * (units + 1);
}

/* A packet with hop-by-hop options, destination options, routing and again destination options, or fewer of them. */
static void make_packet(struct packet *packet)
{
    static const uint8_t places[] = {0, 60, 43, 60};
    uint8_t numbers[5];
    size_t count = 0;
    const unsigned selected = 1 + below(15);
    for (unsigned i = 0; i < 4; i++)
        if (selected >> i & 1) numbers[count++] = places[i];
    numbers[count] = 17;
    packet->bytes[0] = 0x60;
    packet->bytes[6] = numbers[0];
    packet->bytes[7] = 64;
    packet->len = 40;
    for (size_t i = 0; i < count; i++) add_header(packet, numbers[i], numbers[i + 1]);
    packet->len += below(100) < 55 ? 20 + below(80) : below(2) ? 400 + below(200) : 1200 + below(200);
    packet->bytes[4] = (uint8_t)((packet->len - 40) >> 8);
    packet->bytes[5] = (uint8_t)(packet->len - 40);
}

static void copy(const struct packet *packet)
{
    struct wolfaren_dissection dissection;
    wolfaren_dissect(packet->bytes, packet->len, NULL, 0, &dissection);
    memmove(out, packet->bytes, packet->len);
    total += dissection.payload_len;
}

static void without_first(const struct packet *packet)
{
    struct wolfaren_rewritten rewritten;
    if (!wolfaren_remove_header(packet->bytes, packet->len, 0, false, out, sizeof out, &rewritten)) exit(2);
    total += rewritten.len;
}

/* Leaves out the headers with the number of the first, which few packets have twice. */
static void without_number(const struct packet *packet)
{
    struct wolfaren_rewritten rewritten;
    if (!wolfaren_remove_headers(packet->bytes, packet->len, packet->bytes[6], false, out, sizeof out, &rewritten)) exit(2);
    total += rewritten.len;
}

static const struct job {
    const char *name;
    void (*run)(const struct packet *packet);
} jobs[] = {{"copy", copy}, {"without", without_first}, {"by-number", without_number}};

enum { JOBS = sizeof jobs / sizeof *jobs };

static double seconds(void)
{
    struct timespec now;
    clock_gettime(CLOCK_MONOTONIC, &now);
    return (double)now.tv_sec + 1e-9 * (double)now.tv_nsec;
}

static void run_all(const struct job *job)
{
    for (size_t i = 0; i < PACKETS; i++) job->run(&packets[i]);
}

static void time_jobs(void)
{
    double least[JOBS];
    for (size_t job = 0; job < JOBS; job++) least[job] = 1e9;
    for (int round = 0; round < ROUNDS; round++) {
        for (size_t job = 0; job < JOBS; job++) {
            const double start = seconds();
            run_all(&jobs[job]);
            const double spent = (seconds() - start) * 1e9 / PACKETS;
            if (spent < least[job]) least[job] = spent;
        }
    }
    for (size_t job = 0; job < JOBS; job++) printf("%-12s %7.1f ns a packet, %5.2f of the copy\n", jobs[job].name, least[job], least[job] / least[0]);
}

int main(int count, char **arguments)
{
    for (size_t i = 0; i < PACKETS; i++) make_packet(&packets[i]);
    if (count != 3) {
        time_jobs();
        return 0;
    }
    for (size_t job = 0; job < JOBS; job++)
        for (int round = atoi(arguments[1]); strcmp(arguments[2], jobs[job].name) == 0 && round > 0; round--) run_all(&jobs[job]);
    return total == SIZE_MAX;
}
