/*
 * What the library has besides its proved code: the symbol that is named after the interface, a check of the processor, and
 * where the parts of a defragmenter and of counts of chains are in their memory.
 */
#define WOLFAREN_UNLINKED /* what defines the symbol needn't refer to it */
#include "wolfaren.h"

const char WOLFAREN_ABI_SYMBOL = 0;

#ifdef __x86_64__
#include <cpuid.h>

bool wolfaren_cpu_is_supported(void)
{
    /* x86-64-v2, by the System V ABI. CPUID is asked here, since __builtin_cpu_supports needs data of the compiler's library. */
    const unsigned wanted = bit_SSE3 | bit_SSSE3 | bit_CMPXCHG16B | bit_SSE4_1 | bit_SSE4_2 | bit_POPCNT;
    unsigned eax, ebx, ecx, edx;
    if (!__get_cpuid(1, &eax, &ebx, &ecx, &edx) || (ecx & wanted) != wanted) return false;
    return __get_cpuid(0x80000001, &eax, &ebx, &ecx, &edx) && ecx & bit_LAHF_LM;
}
#else
bool wolfaren_cpu_is_supported(void)
{
    return true;
}
#endif

/* The bytes of a defragmenter besides its slots, and those of each slot. Of ages there is a link for each slot and two heads,
 * of chains two links for each slot, one of which is its bucket's, and two buckets more. Each part is a multiple of 8 bytes,
 * or of 4 if pointers have so many. The memories of packets begin at multiples of 1,024, so that two fragments of 1,500 bytes
 * need two pages: at most GAP bytes are left out before them. */
enum {
    HEADS = 2,
    ALIGNMENT = 1024,
    GAP = ALIGNMENT - (sizeof(void *) < 8 ? 4 : 8),
    BESIDE_SLOTS = sizeof(struct wolfaren_defragmenter) + sizeof(struct wolfaren_fragment_counts) + 4 * HEADS * sizeof(uint32_t),
    EACH_SLOT = sizeof(struct wolfaren_slot) + sizeof(struct wolfaren_packet_memory) + 6 * sizeof(uint32_t)
};

/* The number of links is less than 2^32. */
static const size_t most_slots = ((size_t)1 << 31) - HEADS;

size_t wolfaren_defragmenter_size(size_t slots)
{
    if (slots > most_slots || slots > (SIZE_MAX - BESIDE_SLOTS - GAP) / EACH_SLOT) return SIZE_MAX;
    return slots == 0 ? BESIDE_SLOTS : BESIDE_SLOTS + GAP + slots * EACH_SLOT;
}

/* Returns how many slots fit in so many bytes, wherever these are. */
static size_t slots_within(size_t size)
{
    size_t slots = size < BESIDE_SLOTS + GAP ? 0 : (size - BESIDE_SLOTS - GAP) / EACH_SLOT;
    return slots < most_slots ? slots : most_slots;
}

/* Returns the first aligned place from `from` on. */
static void *aligned_from(void *from)
{
    return (uint8_t *)from + (ALIGNMENT - (uintptr_t)from % ALIGNMENT) % ALIGNMENT;
}

/* Returns two arrays of links, the first of which begins at `first`, with so many elements each. */
static struct wolfaren_links links_at(uint32_t *first, size_t count)
{
    struct wolfaren_links links = {first, count, first + count, count};
    return links;
}

struct wolfaren_defragmenter *wolfaren_defragmenter_init(void *memory, size_t size, const uint64_t seed[2])
{
    if ((uintptr_t)memory % 8 != 0 || size < BESIDE_SLOTS) return NULL;

    struct wolfaren_defragmenter *defragmenter = memory;
    struct wolfaren_fragment_counts *counts = (struct wolfaren_fragment_counts *)(defragmenter + 1);
    struct wolfaren_slot *first_slot = (struct wolfaren_slot *)(counts + 1);
    size_t slots = slots_within(size), ages = slots + HEADS, chains = 2 * slots + HEADS;
    uint32_t *links = (uint32_t *)(first_slot + slots), *end = links + 2 * ages + 2 * chains;
    defragmenter->slots = first_slot;
    defragmenter->slot_count = defragmenter->memory_count = slots;
    defragmenter->places = (uint32_t)slots;
    defragmenter->ages = links_at(links, ages);
    defragmenter->chains = links_at(links + 2 * ages, chains);
    defragmenter->memories = slots > 0 ? aligned_from(end) : (void *)end;
    defragmenter->counts = counts;
    defragmenter->settings.seed[0] = seed[0];
    defragmenter->settings.seed[1] = seed[1];
    defragmenter->settings.timeout = WOLFAREN_DEFAULT_TIMEOUT;
    return wolfaren_defragmenter_clear(defragmenter) ? defragmenter : NULL;
}

/* The bytes of counts of chains besides the entries, and those of each entry with its bucket. There is a bucket more. */
enum {
    BESIDE_ENTRIES = sizeof(struct wolfaren_chains) + sizeof(uint32_t),
    EACH_ENTRY = sizeof(struct wolfaren_chain_count) + sizeof(uint32_t)
};

size_t wolfaren_chains_size(size_t entries)
{
    if (entries > UINT32_MAX || entries > (SIZE_MAX - BESIDE_ENTRIES) / EACH_ENTRY) return SIZE_MAX;
    return BESIDE_ENTRIES + entries * EACH_ENTRY;
}

struct wolfaren_chains *wolfaren_chains_init(void *memory, size_t size, const uint64_t seed[2])
{
    if ((uintptr_t)memory % 8 != 0 || size < BESIDE_ENTRIES) return NULL;

    size_t fitting = (size - BESIDE_ENTRIES) / EACH_ENTRY, entries = fitting < UINT32_MAX ? fitting : UINT32_MAX;
    struct wolfaren_chains *chains = memory;
    struct wolfaren_chain_count *first = (struct wolfaren_chain_count *)(chains + 1);
    *chains = (struct wolfaren_chains){.entries = first, .room = entries, .newest = (uint32_t *)(first + entries),
                                       .buckets = entries + 1, .seed = {seed[0], seed[1]}};
    return wolfaren_chains_clear(chains) ? chains : NULL;
}
