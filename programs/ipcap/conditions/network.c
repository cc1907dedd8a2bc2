#include "conditions/network.h"

#include <arpa/inet.h>
#include <stdint.h>
#include <stdio.h>

enum { ADDRESS_BYTES = 16, IPV4_BITS = 32, IPV6_BITS = 128 };

bool is_network(const struct wolfaren_filter_test *test)
{
    return test->kind == WOLFAREN_TEST_SOURCE || test->kind == WOLFAREN_TEST_DESTINATION || test->kind == WOLFAREN_TEST_EITHER;
}

/* Reads the 16 bytes of an address. One of IPv4 is in the last four. */
static void read_address(const struct wolfaren_filter_test *test, uint8_t address[ADDRESS_BYTES])
{
    for (int i = 0; i < 8; i++) {
        address[i] = (uint8_t)(test->address_high >> (56 - 8 * i));
        address[8 + i] = (uint8_t)(test->address_low >> (56 - 8 * i));
    }
}

void write_network(const struct wolfaren_filter_test *test, char text[NETWORK_ROOM])
{
    uint8_t address[ADDRESS_BYTES];
    char written[INET6_ADDRSTRLEN];
    bool is_ipv4 = test->version == 4;
    read_address(test, address);
    inet_ntop(is_ipv4 ? AF_INET : AF_INET6, is_ipv4 ? address + 12 : address, written, sizeof written);
    snprintf(text, NETWORK_ROOM, "%s/%d", written, test->prefix_len);
}

/* Returns a mask of the last bits of 64, of which there are `bits`. */
static uint64_t last_bits(int bits)
{
    return bits <= 0 ? 0 : bits >= 64 ? UINT64_MAX : (UINT64_C(1) << bits) - 1;
}

bool clear_host_bits(struct wolfaren_filter_test *test)
{
    int bits = (test->version == 4 ? IPV4_BITS : IPV6_BITS) - test->prefix_len;
    uint64_t high = test->address_high & last_bits(bits - 64), low = test->address_low & last_bits(bits);
    test->address_high -= high;
    test->address_low -= low;
    return high | low;
}
