#include "commands/budget.h"

#include <pthread.h>
#include <time.h>

#include "commands/stop.h"

/* What the program needs besides files, and what every file needs: buffers, tables, and the longest block of a pcapng file. */
enum { PROGRAM_MEMORY = 16 << 20, FILE_MEMORY = 24 << 20 };

static struct {
    pthread_mutex_t lock;
    pthread_cond_t changed;
    uint64_t limit;
    uint64_t promised;     /* to each file */
    struct account *first; /* of the files that are read, in the order in which they began */
} budget = {.lock = PTHREAD_MUTEX_INITIALIZER, .changed = PTHREAD_COND_INITIALIZER, .limit = DEFAULT_MEMORY - PROGRAM_MEMORY};

void set_budget(uint64_t bytes, uint64_t promised)
{
    budget.limit = bytes - PROGRAM_MEMORY;
    budget.promised = promised;
}

uint64_t memory_for_file(uint64_t bytes)
{
    return bytes - PROGRAM_MEMORY - FILE_MEMORY;
}

size_t files_within_budget(void)
{
    return (size_t)(budget.limit / FILE_MEMORY);
}

/* Returns the most that a file will have used. */
static uint64_t peak(const struct account *account)
{
    uint64_t most = account->used + account->promised + account->may_ask;
    return most < budget.limit ? most : budget.limit;
}

/*
 * Whether a file can take bytes so that each file before it can still have its most, once those before that have ended: they
 * then all end, one after another, whatever the others wait for.
 */
static bool fits(const struct account *account, uint64_t bytes)
{
    for (const struct account *it = budget.first; it && it != account; it = it->next) {
        uint64_t others = bytes;
        for (const struct account *later = it->next; later; later = later->next) others += later->used;
        if (others > budget.limit - peak(it)) return false;
    }
    return true;
}

/* Waits until a file can take bytes, or reading is stopped, which is noticed within a second. The lock is held. */
static void wait_for_memory(const struct account *account, uint64_t bytes)
{
    while (!fits(account, bytes) && !stop_signal) {
        struct timespec until;
        clock_gettime(CLOCK_REALTIME, &until);
        until.tv_sec++;
        pthread_cond_timedwait(&budget.changed, &budget.lock, &until);
    }
}

void open_account(struct account *account, uint64_t may_ask)
{
    pthread_mutex_lock(&budget.lock);
    struct account **place = &budget.first;
    *account = (struct account){.promised = budget.promised, .may_ask = may_ask};
    while (*place) place = &(*place)->next;
    *place = account;
    wait_for_memory(account, FILE_MEMORY);
    account->used = FILE_MEMORY;
    pthread_mutex_unlock(&budget.lock);
}

bool ask_for_memory(struct account *account, uint64_t bytes)
{
    pthread_mutex_lock(&budget.lock);
    bool is_enough = bytes <= budget.limit - account->used - account->promised;
    if (is_enough) {
        wait_for_memory(account, bytes);
        account->used += bytes;
        account->may_ask -= bytes < account->may_ask ? bytes : account->may_ask;
    }
    pthread_mutex_unlock(&budget.lock);
    return is_enough;
}

void take_promised(struct account *account, uint64_t bytes)
{
    pthread_mutex_lock(&budget.lock);
    if (bytes > account->promised) bytes = account->promised;
    wait_for_memory(account, bytes);
    account->used += bytes;
    account->promised -= bytes;
    pthread_mutex_unlock(&budget.lock);
}

void give_memory_back(struct account *account, uint64_t bytes)
{
    pthread_mutex_lock(&budget.lock);
    account->used -= bytes;
    pthread_cond_broadcast(&budget.changed);
    pthread_mutex_unlock(&budget.lock);
}

void close_account(struct account *account)
{
    pthread_mutex_lock(&budget.lock);
    struct account **place = &budget.first;
    while (*place && *place != account) place = &(*place)->next;
    if (*place) *place = account->next;
    pthread_cond_broadcast(&budget.changed);
    pthread_mutex_unlock(&budget.lock);
}
