/* for `getrandom` and `MAP_ANONYMOUS`, which the GNU C library and musl have */
#define _GNU_SOURCE

#include "packets/fragments.h"

#include <stdlib.h>
#include <string.h>
#include <sys/mman.h>
#include <sys/random.h>

#include "capture/blocks.h"
#include "capture/contexts.h"
#include "commands/report.h"
#include "conditions/matching.h"
#include "packets/levels.h"
#include "packets/refusals.h"
#include "wolfaren.h"

/* The types of blocks of a pcapng file that are written. */
enum { SIMPLE_PACKET = 3, ENHANCED_PACKET = 6 };

/* How many bytes of a block with a packet come before the packet, and after it at most. */
enum { BLOCK_HEAD = 28, BLOCK_END = 8 };

/* How long the link headers of a first fragment are at most. Those of frames with longer ones are of the last fragment. */
enum { MOST_LINK_LEN = 256 };

/* What the frames of an incomplete packet had besides the packet. */
struct pending {
    uint64_t fragments; /* number of fragments that arrived; 0 if the slot is free */
    uint64_t lost;      /* number of those that can't be kept, since memory ran out */
    uint64_t first_lost; /* the number of the first one in the capture */
    bool has_memory;    /* the slot has taken memory */
    struct kept *kept;
    struct loss loss;   /* the fragments for the report, also those that were refused */
    int refusal;        /* the outcome by which the packet was abandoned, or 0 */
    int link_type;
    uint16_t link_len; /* length of the first fragment's link headers */
    bool has_link;
    uint8_t link[MOST_LINK_LEN];
};

/* Why fragments made no packet whole, besides the outcomes that aren't 0 to 2. */
enum { LEFT_TIMED_OUT = WOLFAREN_MIXED_ECN + 1, LEFT_DISPLACED, LEFT_INCOMPLETE, LEFT_LONG_LINK, LEFT_LONG_OUTER,
       LEFT_REASONS };

struct defragmenter {
    size_t slot_count;
    uint64_t seed[2]; /* random, the same in both passes; 0 if the system has no random numbers, which senders can guess */
    struct wolfaren_defragmenter *packets; /* null once it was stopped */
    struct pending *pendings;
    uint64_t time; /* of the last packet that had one, in nanoseconds */
    bool keeps;
    bool has_tunnels;
    struct contexts contexts; /* of packets, if those in tunnels are made whole */
    struct parts parts;       /* of a packet that may carry another one */
    uint64_t refused[REFUSALS]; /* number of fragments in tunnels that aren't looked at, by reason */
    bool is_out_of_memory;      /* for places of fragments */
    struct account *account;
    struct kept *kept; /* those that made no packet whole; sorted after it was stopped */
    uint64_t left[LEFT_REASONS]; /* number of fragments by reason */
    uint64_t lost;       /* number of those that can't be kept, since memory ran out */
    uint64_t first_lost; /* the number of the first one in the capture */
    bool is_second;      /* packets are read for the second time */
    uint64_t last;       /* then the number of the last one that was read for the first time */
    struct loss_report *report; /* null if nothing is reported */
    uint8_t block[BLOCK_HEAD + MOST_LINK_LEN + WOLFAREN_WHOLE_PACKET_ROOM + BLOCK_END];
    uint8_t inner[WOLFAREN_WHOLE_PACKET_ROOM]; /* a whole packet of a tunnel, before it is in its frame */
};

/* Allocates memory of which a page is used when it is first written. All bytes are 0. Returns null without memory. */
static void *reserve(size_t size)
{
    if (size > SIZE_MAX / 2) return NULL;
    void *memory = mmap(NULL, size, PROT_READ | PROT_WRITE, MAP_PRIVATE | MAP_ANONYMOUS | MAP_NORESERVE, -1, 0);
    return memory == MAP_FAILED ? NULL : memory;
}

static void release(void *memory, size_t size)
{
    if (memory) munmap(memory, size);
}

/* Releases the slots, so that there are none any more. */
static void release_all(struct defragmenter *defragmenter)
{
    release(defragmenter->packets, wolfaren_defragmenter_size(defragmenter->slot_count));
    release(defragmenter->pendings, defragmenter->slot_count * sizeof *defragmenter->pendings);
    defragmenter->packets = NULL;
    defragmenter->pendings = NULL;
    defragmenter->slot_count = 0;
}

void end_defragmenter(struct defragmenter *defragmenter)
{
    if (!defragmenter) return;
    bool has_lists = defragmenter->keeps || defragmenter->report;
    for (size_t i = 0; defragmenter->pendings && has_lists && i < defragmenter->slot_count; i++) {
        free_kept(defragmenter->account, defragmenter->pendings[i].kept);
        forget_loss(&defragmenter->pendings[i].loss);
    }
    free_kept(defragmenter->account, defragmenter->kept);
    end_contexts(&defragmenter->contexts);
    release_all(defragmenter);
    free(defragmenter);
}

/* Makes a defragmenter of packets. Returns null without memory. */
static struct wolfaren_defragmenter *reserve_packets(size_t slots, const uint64_t seed[2])
{
    size_t size = wolfaren_defragmenter_size(slots);
    void *memory = reserve(size);
    struct wolfaren_defragmenter *packets = memory ? wolfaren_defragmenter_init(memory, size, seed) : NULL;
    if (!packets) release(memory, size);
    return packets;
}

/*
 * How much memory a slot has, and the list of its fragments for a report at most. The memory of a single slot may also have
 * parts of pages before and after it.
 */
enum {
    PAGES_BESIDE = 2 * 4096,
    LIST_MEMORY = MOST_NUMBERS * sizeof(uint64_t),
    SLOT_LINKS = 6 * sizeof(uint32_t),
    SLOT_MEMORY = sizeof(struct wolfaren_slot) + sizeof(struct wolfaren_packet_memory) + SLOT_LINKS + sizeof(struct pending)
};

uint64_t memory_of_slots(uint64_t slots, bool has_report)
{
    uint64_t each = SLOT_MEMORY + (has_report ? LIST_MEMORY : 0);
    return slots > UINT64_MAX / 2 / each ? UINT64_MAX : slots * each + PAGES_BESIDE;
}

uint64_t slots_within(uint64_t memory)
{
    /* what is left is for decompression */
    uint64_t slots = memory_for_file(memory) / 4 * 3 / SLOT_MEMORY;
    return slots < DEFAULT_SLOTS ? slots : DEFAULT_SLOTS;
}

/* Reserves slots. Returns false without memory. */
static bool reserve_all(struct defragmenter *defragmenter, uint64_t slots)
{
    defragmenter->slot_count = slots;
    defragmenter->packets = reserve_packets(slots, defragmenter->seed);
    if (defragmenter->packets) defragmenter->pendings = reserve(slots * sizeof *defragmenter->pendings);
    return defragmenter->pendings;
}

struct defragmenter *begin_defragmenter(struct account *account, uint64_t slots, bool has_tunnels, bool keeps)
{
    struct defragmenter *defragmenter = calloc(1, sizeof *defragmenter);
    if (!defragmenter) return NULL;
    defragmenter->has_tunnels = has_tunnels;
    defragmenter->keeps = keeps;
    defragmenter->account = account;
    if (getrandom(defragmenter->seed, sizeof defragmenter->seed, 0) != sizeof defragmenter->seed)
        memset(defragmenter->seed, 0, sizeof defragmenter->seed);
    if (reserve_all(defragmenter, slots)) return defragmenter;
    end_defragmenter(defragmenter);
    return NULL;
}

bool begin_second_pass(struct defragmenter *defragmenter, uint64_t slots, uint64_t last)
{
    take_kept(defragmenter->account, defragmenter->kept);
    take_contexts(&defragmenter->contexts, defragmenter->account);
    defragmenter->is_second = true;
    defragmenter->last = last;
    defragmenter->keeps = false;
    defragmenter->report = NULL;
    defragmenter->time = 0;
    return reserve_all(defragmenter, slots);
}

void report_losses(struct defragmenter *defragmenter, struct loss_report *report)
{
    defragmenter->report = report;
}

/* What the report says of a packet, by the reason. */
static const char *const loss_words[LEFT_REASONS] = {
    [WOLFAREN_FAULTY_FRAGMENT] = "refused: its headers are truncated or faulty",
    [WOLFAREN_NO_STATED_LENGTH] = "refused: it states no length",
    [WOLFAREN_BYTES_MISSING] = "refused: bytes of it are missing",
    [WOLFAREN_UNALIGNED] = "refused: its length isn't a positive multiple of 8, though more follow",
    [WOLFAREN_TOO_LONG] = "refused: it makes its packet too long for its length field",
    [WOLFAREN_OVERLAP] = "refused: a fragment overlaps others",
    [WOLFAREN_TWO_ENDS] = "refused: a fragment contradicts the end of the packet",
    [WOLFAREN_ABANDONED] = "refused: the packet was abandoned",
    [WOLFAREN_HEADERS_TOO_LONG] = "refused: it has more than 4,096 bytes of headers",
    [WOLFAREN_NO_SLOT] = "refused: there is no slot",
    [WOLFAREN_MIXED_ECN] = "refused: some fragments are ECN-capable, others aren't",
    [LEFT_TIMED_OUT] = "timed out: not whole after 60 seconds",
    [LEFT_DISPLACED] = "displaced: given up for another packet, since all slots were in use",
    [LEFT_INCOMPLETE] = "not whole at the end",
    [LEFT_LONG_LINK] = "refused: more than 256 bytes of link-layer headers",
    [LEFT_LONG_OUTER] = "refused: too long for the length field of a packet that carries it",
};

/* Adds a fragment to those of a packet for the report. */
static void note_loss(struct defragmenter *defragmenter, struct loss *loss, const struct capture *capture,
                      const struct packet *packet)
{
    if (defragmenter->report) add_to_loss(defragmenter->report, loss, capture, packet);
}

/*
 * Reports a fragment that was refused: with its packet, if that was abandoned, and otherwise in a line of its own. A packet that
 * is abandoned has accepted a fragment before.
 */
static void report_refused(struct defragmenter *defragmenter, struct pending *pending, int outcome,
                           const struct capture *capture, const struct packet *packet)
{
    struct loss alone = {0};
    bool is_abandoned = outcome == WOLFAREN_OVERLAP || outcome == WOLFAREN_TWO_ENDS || outcome == WOLFAREN_ABANDONED
        || outcome == WOLFAREN_MIXED_ECN;
    if (!defragmenter->report) return;
    if (is_abandoned) {
        note_loss(defragmenter, &pending->loss, capture, packet);
        if (pending->refusal == 0) pending->refusal = outcome;
        return;
    }
    note_loss(defragmenter, &alone, capture, packet);
    write_loss(defragmenter->report, &alone, loss_words[outcome]);
}

/* Frees the fragments of a packet that is whole. */
static void forget(struct defragmenter *defragmenter, struct pending *pending)
{
    free_kept(defragmenter->account, pending->kept);
    pending->kept = NULL;
    pending->fragments = pending->lost = 0;
    pending->has_link = false;
    pending->refusal = 0;
    forget_loss(&pending->loss);
}

/* Counts fragments that can't be kept. */
static void lose(struct defragmenter *defragmenter, uint64_t count, uint64_t first)
{
    if (count > 0 && (defragmenter->lost == 0 || first < defragmenter->first_lost)) defragmenter->first_lost = first;
    defragmenter->lost += count;
}

/* Counts the fragments of a packet that was given up, and moves them to those that made no packet whole. */
static void give_up(struct defragmenter *defragmenter, struct pending *pending, int reason)
{
    struct kept **end = &pending->kept;
    while (*end) end = &(*end)->next;
    *end = defragmenter->kept;
    defragmenter->kept = pending->kept;
    if (defragmenter->report)
        write_loss(defragmenter->report, &pending->loss, loss_words[pending->refusal ? pending->refusal : reason]);
    defragmenter->left[reason] += pending->fragments;
    lose(defragmenter, pending->lost, pending->first_lost);
    pending->kept = NULL;
    forget(defragmenter, pending);
}

/* Notes a fragment that was accepted. If it is the first one, and in no tunnel, copies its link headers. */
static void note(struct defragmenter *defragmenter, struct pending *pending, size_t slot,
                 const struct capture *capture, const struct packet *packet, bool is_inner)
{
    pending->fragments++;
    if (!pending->has_memory)
        take_promised(defragmenter->account, SLOT_MEMORY + PAGES_BESIDE + (defragmenter->report ? LIST_MEMORY : 0));
    pending->has_memory = true;
    note_loss(defragmenter, &pending->loss, capture, packet);
    if (defragmenter->keeps && !keep(defragmenter->account, &pending->kept, capture->number) && pending->lost++ == 0)
        pending->first_lost = capture->number;
    if (is_inner || pending->has_link || !defragmenter->packets->memories[slot].first_here || packet->ip_offset > MOST_LINK_LEN)
        return;
    pending->has_link = true;
    pending->link_type = packet->link_type;
    pending->link_len = (uint16_t)packet->ip_offset;
    memcpy(pending->link, packet->frame, packet->ip_offset);
}

/* Returns the type of the block with a packet. */
static uint32_t block_type(const struct packet *packet)
{
    return block_number(packet->block, !packet->is_big_endian);
}

/* Returns the context of a packet: its interface, of which only the last 8 bits count, and its first two VLANs. */
static uint32_t context_of(const struct packet *packet)
{
    enum { VLAN_BITS = 24 };
    return packet->interface << VLAN_BITS | packet->vlans;
}

/*
 * Makes the block of a whole packet, whose frame begins at BLOCK_HEAD of the buffer, from that of the last fragment: it has
 * the interface and the time of that, and no options.
 */
static void make_block(struct defragmenter *defragmenter, struct packet *packet)
{
    bool little = !packet->is_big_endian, is_simple = block_type(packet) == SIMPLE_PACKET;
    uint32_t len = packet->header.caplen, padded = padded_len(len);
    uint8_t *block = is_simple ? defragmenter->block + BLOCK_HEAD - 12 : defragmenter->block;
    uint32_t block_len = (is_simple ? 16 : 32) + padded;
    put_block_number(block, is_simple ? SIMPLE_PACKET : ENHANCED_PACKET, little);
    put_block_number(block + 4, block_len, little);
    if (!is_simple) {
        memmove(block + 8, packet->block + 8, 12);
        put_block_number(block + 8, packet->interface, little);
        put_block_number(block + 20, len, little);
    }
    put_block_number(defragmenter->block + BLOCK_HEAD - 4, len, little);
    memset(defragmenter->block + BLOCK_HEAD + len, 0, padded - len);
    put_block_number(defragmenter->block + BLOCK_HEAD + padded, block_len, little);
    packet->block = block;
    packet->block_len = block_len;
}

/* Replaces the last fragment of a packet by the whole one. Returns false if its link headers are too long. */
static bool make_whole(struct defragmenter *defragmenter, struct pending *pending, size_t slot, struct packet *packet)
{
    uint8_t *frame = defragmenter->block + BLOCK_HEAD;
    bool has_link = pending->has_link && pending->link_type == packet->link_type;
    size_t link_len = has_link ? pending->link_len : packet->ip_offset, len;
    if (link_len > MOST_LINK_LEN) return false;
    memcpy(frame, has_link ? pending->link : packet->frame, link_len);
    if (!wolfaren_defragmenter_packet(defragmenter->packets, slot, frame + link_len, WOLFAREN_WHOLE_PACKET_ROOM, &len)) return false;
    packet->header.caplen = packet->header.len = (uint32_t)(link_len + len);
    packet->ip_offset = link_len;
    packet->is_short = false;
    if (packet->block) make_block(defragmenter, packet);
    packet->frame = frame;
    return true;
}

/* Updates the time by that of a packet, if it has one after 1970. */
static void note_time(struct defragmenter *defragmenter, const struct packet *packet)
{
    const struct timespec time = packet->time;
    if (!packet->has_time || time.tv_sec < 0) return;
    defragmenter->time = (uint64_t)time.tv_sec * 1000000000 + (uint64_t)time.tv_nsec;
}

/* Whether a fragment that is read for the second time is one that was kept. The numbers that are asked for only grow. */
static bool is_kept(struct defragmenter *defragmenter, uint64_t number)
{
    struct kept *kept;
    if (!defragmenter->is_second) return false;
    while ((kept = defragmenter->kept) && kept->number < number) {
        defragmenter->kept = kept->next;
        kept->next = NULL;
        free_kept(defragmenter->account, kept);
    }
    return kept && kept->number == number;
}

/* What became of a packet. */
enum fate {
    PASSED,   /* it is no fragment */
    HELD,     /* it makes no packet whole */
    COMPLETED /* it makes one whole */
};

/* Adds a packet, of a frame or of a tunnel. Stores where its fragments are noted. */
static enum fate add(struct defragmenter *defragmenter, const struct capture *capture, const struct packet *packet,
                     uint32_t context, bool is_inner, struct pending **place)
{
    struct wolfaren_added added;
    wolfaren_defragmenter_add(defragmenter->packets, context, packet->frame + packet->ip_offset,
                              packet->header.caplen - packet->ip_offset, defragmenter->time, &added);
    if (added.outcome == WOLFAREN_NOT_FRAGMENT) return PASSED;
    struct pending *pending = &defragmenter->pendings[added.slot]; /* used after a loss, or if the fragment was stored */
    *place = pending;
    if (added.loss != WOLFAREN_NO_LOSS)
        give_up(defragmenter, pending, added.loss == WOLFAREN_TIMED_OUT ? LEFT_TIMED_OUT : LEFT_DISPLACED);
    if (added.outcome > WOLFAREN_WHOLE) {
        defragmenter->left[added.outcome]++;
        report_refused(defragmenter, pending, added.outcome, capture, packet);
        if (defragmenter->keeps && !keep(defragmenter->account, &defragmenter->kept, capture->number))
            lose(defragmenter, 1, capture->number);
        return HELD;
    }
    note(defragmenter, pending, added.slot, capture, packet, is_inner);
    return added.outcome == WOLFAREN_WHOLE ? COMPLETED : HELD;
}

/* Ends with the fragments of a packet: forgets them if it was made whole. Returns whether it was. */
static bool settle(struct defragmenter *defragmenter, struct pending *pending, int reason)
{
    if (reason == 0)
        forget(defragmenter, pending);
    else
        give_up(defragmenter, pending, reason);
    return reason == 0;
}

/* Finds the number of the place of the last packet. If memory runs out, notes that and returns false. */
static bool find_context(struct defragmenter *defragmenter, const struct packet *packet, const struct levels *levels,
                         uint32_t *number)
{
    const uint32_t arrival = context_of(packet);
    *number = arrival;
    if (!defragmenter->has_tunnels) return true;
    if (number_context(&defragmenter->contexts, defragmenter->account, arrival, levels, packet->frame, number)) return true;
    defragmenter->is_out_of_memory = true;
    return false;
}

/* Adds the packet of a frame. Returns whether it is to be read, changed or not. */
static bool add_outer(struct defragmenter *defragmenter, const struct capture *capture, struct packet *packet)
{
    struct levels levels;
    struct pending *pending;
    uint32_t context;
    levels.count = 1;
    /* only fragments get the number of a place */
    if (defragmenter->has_tunnels) {
        parse_captured(&defragmenter->parts, packet);
        if (!is_fragment(&defragmenter->parts)) return true;
    }
    if (!find_context(defragmenter, packet, &levels, &context)) return true;
    enum fate fate = add(defragmenter, capture, packet, context, false, &pending);
    if (fate != COMPLETED) return fate == PASSED;
    const size_t slot = (size_t)(pending - defragmenter->pendings);
    return settle(defragmenter, pending, make_whole(defragmenter, pending, slot, packet) ? 0 : LEFT_LONG_LINK);
}

/*
 * Replaces the last fragment of a packet in tunnels by the whole one, within the outer headers that are there. What follows the
 * outermost packet isn't kept. Returns 0, or why that can't be.
 */
static int make_inner_whole(struct defragmenter *defragmenter, const struct pending *pending, struct levels *levels,
                            struct packet *packet)
{
    uint8_t *frame = defragmenter->block + BLOCK_HEAD;
    struct level *outermost = &levels->of[0];
    const size_t index = levels->count - 1, slot = (size_t)(pending - defragmenter->pendings), old_len = levels->of[index].len;
    size_t len, frame_len = outermost->offset + outermost->stated_len;
    if (outermost->offset > MOST_LINK_LEN) return LEFT_LONG_LINK;
    if (!wolfaren_defragmenter_packet(defragmenter->packets, slot, defragmenter->inner, sizeof defragmenter->inner, &len))
        return LEFT_LONG_OUTER;
    if (refuse_growth(levels, index, (ptrdiff_t)len - (ptrdiff_t)old_len, false) != WOLFAREN_NOT_REFUSED) return LEFT_LONG_OUTER;
    if (packet->frame != frame) memcpy(frame, packet->frame, frame_len);
    replace_packet(levels, index, frame, &frame_len, old_len, defragmenter->inner, len);
    packet->header.caplen = packet->header.len = (uint32_t)frame_len;
    packet->is_short = false;
    if (packet->block) make_block(defragmenter, packet);
    packet->frame = frame;
    return 0;
}

/*
 * Adds a fragment in a tunnel, the last packet of the levels. If it makes a packet whole, that takes its place in the frame
 * and is dissected. One for which that couldn't be is only counted.
 */
static enum fate add_inner(struct defragmenter *defragmenter, const struct capture *capture, struct packet *packet,
                           struct levels *levels, struct packet *inner)
{
    const struct level *level = &levels->of[levels->count - 1];
    struct pending *pending;
    uint32_t context;
    const uint8_t refusal = refuse_growth(levels, levels->count - 1, 0, false);
    if (refusal != WOLFAREN_NOT_REFUSED) defragmenter->refused[refusal]++;
    if (refusal != WOLFAREN_NOT_REFUSED || !find_context(defragmenter, packet, levels, &context)) return PASSED;
    enum fate fate = add(defragmenter, capture, inner, context, true, &pending);
    if (fate != COMPLETED) return fate;
    if (!settle(defragmenter, pending, make_inner_whole(defragmenter, pending, levels, packet))) return HELD;
    inner->frame = packet->frame;
    inner->header.caplen = (uint32_t)(level->offset + level->len);
    parse_captured(&defragmenter->parts, inner);
    return COMPLETED;
}

/* Adds the packets in the tunnels of a frame's packet. Returns whether the frame is to be read, changed or not. */
static bool add_tunnels(struct defragmenter *defragmenter, const struct capture *capture, struct packet *packet)
{
    struct packet inner = *packet;
    struct levels levels;
    begin_levels(&levels, packet);
    do {
        parse_captured(&defragmenter->parts, &inner);
        const bool is_part = levels.count > 1 && is_fragment(&defragmenter->parts);
        enum fate fate = is_part ? add_inner(defragmenter, capture, packet, &levels, &inner) : COMPLETED;
        if (fate != COMPLETED) return fate == PASSED;
    } while (enter_level(&levels, &defragmenter->parts, &inner));
    return true;
}

/* Adds a packet that was read. Returns whether it is to be read, changed or not. */
static bool add_packet(struct defragmenter *defragmenter, const struct capture *capture, struct packet *packet)
{
    note_time(defragmenter, packet);
    const bool is_passed = add_outer(defragmenter, capture, packet)
        && (!defragmenter->has_tunnels || add_tunnels(defragmenter, capture, packet));
    return is_passed || is_kept(defragmenter, capture->number);
}

/*
 * Makes a simple packet block that the snap length truncated state the captured length: the snap length, which said how many
 * bytes there are, isn't copied.
 */
static void state_captured_len(struct capture *capture, struct packet *packet)
{
    enum { SIMPLE_LEN_AT = 8 };
    if (!capture->copy || !packet->is_short || block_type(packet) != SIMPLE_PACKET) return;
    put_block_number(capture->blocks.block + SIMPLE_LEN_AT, packet->header.caplen, !packet->is_big_endian);
    packet->header.len = packet->header.caplen;
}

/* Passes a packet that was read: all but fragments, and whole packets. For the second time also fragments that were kept. */
static bool pass(struct capture *capture, struct packet *packet)
{
    const struct defragmenter *defragmenter = capture->passer;
    state_captured_len(capture, packet);
    if (defragmenter->is_second && capture->number > defragmenter->last) return true;
    return !packet->is_ip || packet->is_left_out || add_packet(capture->passer, capture, packet);
}

void pass_whole(struct defragmenter *defragmenter, struct capture *capture)
{
    capture->pass = pass;
    capture->passer = defragmenter;
}

/* Compares two packets by the number of the first fragment. */
static int compare_losses(const void *a, const void *b)
{
    const struct loss *one = &(*(struct pending *const *)a)->loss, *other = &(*(struct pending *const *)b)->loss;
    uint64_t first = one->kept > 0 ? one->numbers[0] : 0, second = other->kept > 0 ? other->numbers[0] : 0;
    return first < second ? -1 : first > second;
}

/* Reports the packets that aren't whole in the order of their first fragments, as far as memory allows. */
static void report_incomplete(struct defragmenter *defragmenter)
{
    struct pending **found = defragmenter->report ? calloc(defragmenter->slot_count, sizeof(struct pending *)) : NULL;
    size_t count = 0;
    for (size_t i = 0; found && i < defragmenter->slot_count; i++)
        if (defragmenter->pendings[i].fragments > 0) found[count++] = &defragmenter->pendings[i];
    if (found) qsort(found, count, sizeof *found, compare_losses);
    for (size_t i = 0; i < count; i++) give_up(defragmenter, found[i], LEFT_INCOMPLETE);
    free(found);
}

void stop_defragmenter(struct defragmenter *defragmenter)
{
    report_incomplete(defragmenter);
    for (size_t i = 0; i < defragmenter->slot_count; i++)
        if (defragmenter->pendings[i].fragments > 0) give_up(defragmenter, &defragmenter->pendings[i], LEFT_INCOMPLETE);
    release_all(defragmenter);
    defragmenter->kept = sort_kept(defragmenter->kept);
}

bool has_had_memory(const struct defragmenter *defragmenter)
{
    return defragmenter->lost == 0 && !defragmenter->is_out_of_memory;
}

void report_fragments(const struct defragmenter *defragmenter, const char *name)
{
    static const char *const reasons[LEFT_REASONS] = {
        [WOLFAREN_FAULTY_FRAGMENT] = "whose headers are truncated or faulty",
        [WOLFAREN_NO_STATED_LENGTH] = "that state no length",
        [WOLFAREN_BYTES_MISSING] = "of which bytes are missing",
        [WOLFAREN_UNALIGNED] = "whose length isn't a positive multiple of 8, though more follow",
        [WOLFAREN_TOO_LONG] = "that make their packet too long for its length field",
        [WOLFAREN_OVERLAP] = "that overlap others",
        [WOLFAREN_TWO_ENDS] = "that contradict the end of their packet",
        [WOLFAREN_ABANDONED] = "of packets with an overlap, two ends or mixed ECN code points",
        [WOLFAREN_HEADERS_TOO_LONG] = "with more than 4,096 bytes of headers",
        [WOLFAREN_NO_SLOT] = "without a slot",
        [WOLFAREN_MIXED_ECN] = "that are ECN-capable where others of their packet aren't, or the reverse",
        [LEFT_TIMED_OUT] = "of packets that weren't whole after 60 seconds",
        [LEFT_DISPLACED] = "of packets given up for others, since all slots were in use",
        [LEFT_INCOMPLETE] = "of packets that aren't whole at the end",
        [LEFT_LONG_LINK] = "of packets with more than 256 bytes of link-layer headers",
        [LEFT_LONG_OUTER] = "of packets in tunnels that are too long for the length fields of outer packets",
    };
    for (int i = 0; i < LEFT_REASONS; i++)
        if (defragmenter->left[i] > 0)
            complain("%s: %llu %s %s", name, (unsigned long long)defragmenter->left[i],
                     defragmenter->left[i] == 1 ? "fragment" : "fragments", reasons[i]);
    report_refusals(name, defragmenter->refused, "fragment in a tunnel", "fragments in tunnels");
    if (defragmenter->is_out_of_memory) complain("%s: out of memory", name);
    if (defragmenter->lost > 0)
        complain("%s: %llu of these %s kept, first packet %llu: out of memory", name, (unsigned long long)defragmenter->lost,
                 defragmenter->lost == 1 ? "wasn't" : "weren't", (unsigned long long)defragmenter->first_lost);
}
