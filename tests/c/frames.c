/* Tests wolfaren_find_ip and wolfaren_find_ip_after: frames that end anywhere, and what is stored. */
#include "wolfaren.h"

#include <stdio.h>
#include <stdlib.h>
#include <string.h>

static void expect(bool holds, const char *what)
{
    if (holds) return;
    fprintf(stderr, "frames: failed: %s\n", what);
    exit(1);
}

/* Finds IP in the first `len` bytes of a frame: a copy that ends where its memory ends, so that the sanitizer sees any byte read after it. */
static struct wolfaren_frame found_in(uint32_t link_type, const uint8_t *frame, size_t len)
{
    struct wolfaren_frame found;
    uint8_t *bytes = malloc(len);
    expect(bytes != NULL || len == 0, "memory");
    if (len > 0) memcpy(bytes, frame, len);
    memset(&found, 0xff, sizeof found);
    expect(wolfaren_find_ip(link_type, bytes, len, &found), "a link type that is supported");
    free(bytes);
    return found;
}

/* Two tags (IEEE 802.1ad, 802.1Q) of VLANs 100 and 200, and IPv6. */
static const uint8_t tagged[] = {2, 0, 0, 0, 0, 1, 2, 0, 0, 0, 0, 2, 0x88, 0xa8, 0, 100, 0x81, 0, 0xe0, 200, 0x86, 0xdd, 0x60};

static void test_tags(void)
{
    struct wolfaren_frame found = found_in(1, tagged, sizeof tagged);
    expect(found.offset == 22 && found.needed == 0 && found.end == WOLFAREN_FRAME_IP, "where IP is");
    expect(found.vlan_count == 2 && found.first_vlan == 100 && found.second_vlan == 200, "the VLANs");
    expect(found.number_kind == WOLFAREN_ETHERTYPE && found.number == 0x86dd && found.version == 6, "the number");
}

static void test_truncated_frames(void)
{
    for (size_t len = 0; len < 22; len++) {
        struct wolfaren_frame found = found_in(1, tagged, len);
        size_t offset = len < 14 ? 0 : len < 18 ? 14 : 18;
        expect(found.end == WOLFAREN_FRAME_TRUNCATED && found.offset == offset, "where the truncated header begins");
        expect(found.needed == (offset == 0 ? 14 : 4), "how many bytes it needs");
        expect(found.vlan_count == (len < 18 ? 0 : 1) && found.first_vlan == (len < 18 ? 0 : 100), "the tags that are there");
        expect(found.number == (len < 14 ? 0 : len < 18 ? 0x88a8 : 0x8100) && found.version == 0, "the last number");
        expect(found.number_kind == (len < 14 ? WOLFAREN_NO_NUMBER : WOLFAREN_ETHERTYPE), "its kind");
    }
}

static void test_other_frames(void)
{
    static const uint8_t arp[] = {2, 0, 0, 0, 0, 1, 2, 0, 0, 0, 0, 2, 8, 6, 0, 1};
    static const uint8_t ipv4[] = {2, 0, 0, 0, 0, 1, 2, 0, 0, 0, 0, 2, 8, 0, 0x60};
    static const uint8_t bpdu[] = {1, 0x80, 0xc2, 0, 0, 0, 2, 0, 0, 0, 0, 2, 0, 0x26, 0x42, 0x42, 3};
    static const uint8_t ppp[] = {0xff, 3, 0x57, 0x60}, loopback[] = {0, 0, 0, 2, 0x45};
    struct wolfaren_frame found = found_in(1, arp, sizeof arp);
    expect(found.end == WOLFAREN_FRAME_OTHER && found.offset == 14 && found.number == 0x0806, "ARP");
    found = found_in(1, ipv4, sizeof ipv4);
    expect(found.end == WOLFAREN_FRAME_IP && found.offset == 14 && found.version == 4 && found.vlan_count == 0, "IPv4 as announced");
    found = found_in(1, bpdu, sizeof bpdu);
    expect(found.end == WOLFAREN_FRAME_OTHER && found.number_kind == WOLFAREN_LLC && found.number == 0x42, "LLC");
    found = found_in(9, ppp, sizeof ppp);
    expect(found.end == WOLFAREN_FRAME_IP && found.offset == 3 && found.number_kind == WOLFAREN_PPP && found.version == 6, "PPP");
    found = found_in(0, loopback, sizeof loopback);
    expect(found.end == WOLFAREN_FRAME_IP && found.offset == 4 && found.number_kind == WOLFAREN_FAMILY && found.version == 4, "BSD loopback");
    static const uint8_t beacon[] = {0x80, 0, 0, 0}, radiotap[] = {0, 0, 9, 0, 2, 0, 0, 0, 0x10, 0x80, 0};
    found = found_in(105, beacon, sizeof beacon);
    expect(found.end == WOLFAREN_FRAME_OTHER && found.number_kind == WOLFAREN_IEEE80211 && found.number == 8, "a beacon");
    found = found_in(127, radiotap, sizeof radiotap);
    expect(found.end == WOLFAREN_FRAME_OTHER && found.offset == 9 && found.number == 8, "a beacon after radiotap");
    found = found_in(101, NULL, 0);
    expect(found.end == WOLFAREN_FRAME_IP && found.offset == 0 && found.number_kind == WOLFAREN_NO_NUMBER && found.version == 0, "raw IP");
}

static void test_unsupported_link_type(void)
{
    struct wolfaren_frame found, before;
    memset(&found, 0xff, sizeof found);
    before = found;
    expect(!wolfaren_find_ip(147, tagged, sizeof tagged, &found), "a link type that isn't supported");
    expect(memcmp(&found, &before, sizeof found) == 0, "nothing is stored");
}

static void test_after_ethertypes(void)
{
    struct wolfaren_frame found;
    wolfaren_find_ip_after(0x88a8, tagged + 14, sizeof tagged - 14, &found);
    expect(found.end == WOLFAREN_FRAME_IP && found.offset == 8 && found.vlan_count == 2 && found.version == 6, "tags");
    wolfaren_find_ip_after(0x0806, NULL, 0, &found);
    expect(found.end == WOLFAREN_FRAME_OTHER && found.offset == 0 && found.number == 0x0806, "ARP after nothing");
}

int main(void)
{
    test_tags();
    test_truncated_frames();
    test_other_frames();
    test_unsupported_link_type();
    test_after_ethertypes();
    return 0;
}
