#include "commands/count_files.h"

#include <pthread.h>
#include <stdlib.h>
#include <string.h>
#include <time.h>

#include "capture/input.h"
#include "commands/confine.h"
#include "commands/stop.h"
#include "packets/fragments.h"

/* Each thread may be ahead of the file that is handed over by this many files. */
enum { FILES_AHEAD = 2 };

/* A place for a file that is counted ahead. */
struct slot {
    struct counted_file file; /* written by one thread until `is_done` is set */
    bool is_done;
};

/* What the threads share. The lock protects all that changes, and `changed` reports each change. */
struct pool {
    pthread_mutex_t lock;
    pthread_cond_t changed;
    const struct files *files;
    size_t next;  /* the first file that no thread has begun */
    size_t taken; /* number of files that were handed over */
    bool is_stopped;
    struct slot *slots; /* a ring, for the files from `taken` on */
    size_t room;
};

/* How a file is counted. */
enum turn {
    SIDE_BY_SIDE,
    IN_TURN,     /* no other file is counted meanwhile: progress is shown */
    LAST_IN_TURN /* and no file is opened after it */
};

/* Counts the packets of a file. */
static void count_packets(struct counted_file *file, const struct files *files, struct input *input, struct account *account,
                          enum turn turn)
{
    file->is_open = begin_input(input, file->path, account, false);
    if (turn == SIDE_BY_SIDE) input->capture.follow = NULL;
    if (turn == LAST_IN_TURN) confine(FILES_NONE);
    if (file->is_open) {
        if (files->has_whole) file->defragmenter = begin_defragmenter(account, files->slots, files->has_tunnels, false);
        if (file->defragmenter) pass_whole(file->defragmenter, &input->capture);
        file->is_memory_short = (files->has_whole && !file->defragmenter) || !count_capture(&file->counts, &input->capture);
        if (file->defragmenter) stop_defragmenter(file->defragmenter);
        end_input(input);
    }
    file->name = input->capture.name;
    memcpy(file->error, input->capture.error, sizeof file->error);
}

/* Counts a file by its number, unless reading was stopped before. The input is too large for the stacks of some threads. */
static void count_file(struct counted_file *file, const struct files *files, size_t number, enum turn turn)
{
    memset(file, 0, sizeof *file);
    file->name = file->path = files->paths[number];
    init_counts(&file->counts, files->has_tunnels, files->chains);
    if (stop_signal) return;
    struct account account = {0};
    struct input *input = calloc(1, sizeof *input);
    file->is_memory_short = !input;
    if (input) count_packets(file, files, input, &account, turn);
    free(input);
    close_account(&account);
}

/* Releases what is known of a file. */
static void free_file(struct counted_file *file)
{
    free_counts(&file->counts);
    end_defragmenter(file->defragmenter);
}

/* Counts files one after another. */
static void count_in_turn(const struct files *files, take_counted_file *take, void *taker)
{
    bool is_wanted = true;
    for (size_t i = 0; i < files->count && is_wanted; i++) {
        struct counted_file file;
        count_file(&file, files, i, i + 1 < files->count ? IN_TURN : LAST_IN_TURN);
        is_wanted = take(&file, taker);
        free_file(&file);
    }
}

/* Waits until a file may be begun, and returns its number, or `count` if there is none. The lock is held. */
static size_t begin_next(struct pool *pool)
{
    while (!pool->is_stopped && pool->next < pool->files->count && pool->next - pool->taken == pool->room)
        pthread_cond_wait(&pool->changed, &pool->lock);
    return pool->is_stopped || pool->next == pool->files->count ? pool->files->count : pool->next++;
}

/* Counts files until none is left. */
static void *work(void *place)
{
    struct pool *pool = place;
    pthread_mutex_lock(&pool->lock);
    for (size_t i; (i = begin_next(pool)) < pool->files->count;) {
        struct slot *slot = &pool->slots[i % pool->room];
        pthread_mutex_unlock(&pool->lock);
        count_file(&slot->file, pool->files, i, SIDE_BY_SIDE);
        pthread_mutex_lock(&pool->lock);
        slot->is_done = true;
        pthread_cond_broadcast(&pool->changed);
    }
    pthread_mutex_unlock(&pool->lock);
    return NULL;
}

/* Waits for a second, or for a change. */
static void wait_for_change(struct pool *pool)
{
    struct timespec until;
    clock_gettime(CLOCK_REALTIME, &until);
    until.tv_sec++;
    pthread_cond_timedwait(&pool->changed, &pool->lock, &until);
}

/* Waits until a file has been counted, and shows the progress in the meantime. */
static struct slot *wait_for(struct pool *pool, size_t number, struct files_progress *progress)
{
    struct slot *slot = &pool->slots[number % pool->room];
    pthread_mutex_lock(&pool->lock);
    while (!slot->is_done) {
        wait_for_change(pool);
        show_files_progress(progress, number, pool->files->count);
    }
    pthread_mutex_unlock(&pool->lock);
    return slot;
}

/* Makes room for one more file, or lets no file be begun any more. */
static void release(struct pool *pool, struct slot *slot, bool is_wanted)
{
    free_file(&slot->file);
    pthread_mutex_lock(&pool->lock);
    slot->is_done = false;
    pool->taken++;
    pool->is_stopped = !is_wanted;
    pthread_cond_broadcast(&pool->changed);
    pthread_mutex_unlock(&pool->lock);
}

/* Hands over the files in their order. */
static void hand_over(struct pool *pool, take_counted_file *take, void *taker)
{
    bool is_wanted = true;
    struct files_progress progress;
    begin_files_progress(&progress);
    for (size_t i = 0; i < pool->files->count && is_wanted; i++) {
        struct slot *slot = wait_for(pool, i, &progress);
        clear_files_progress(&progress);
        is_wanted = take(&slot->file, taker);
        release(pool, slot, is_wanted);
    }
}

/* Counts files by as many of these threads as can be started. Returns false if none can. */
static bool count_by_threads(struct pool *pool, pthread_t *threads, size_t jobs, take_counted_file *take, void *taker)
{
    size_t started = 0;
    while (started < jobs && pthread_create(&threads[started], NULL, work, pool) == 0) started++;
    if (started == 0) return false;
    hand_over(pool, take, taker);
    for (size_t i = 0; i < started; i++) pthread_join(threads[i], NULL);
    /* files that were counted ahead when `take` stopped */
    for (size_t i = 0; i < pool->room; i++)
        if (pool->slots[i].is_done) free_file(&pool->slots[i].file);
    return true;
}

static bool count_in_parallel(const struct files *files, size_t jobs, take_counted_file *take, void *taker)
{
    struct pool pool = {.lock = PTHREAD_MUTEX_INITIALIZER, .changed = PTHREAD_COND_INITIALIZER, .files = files,
                        .room = FILES_AHEAD * jobs};
    pthread_t *threads = calloc(jobs, sizeof *threads);
    pool.slots = calloc(pool.room, sizeof *pool.slots);
    bool is_counted = threads && pool.slots && count_by_threads(&pool, threads, jobs, take, taker);
    free(pool.slots);
    free(threads);
    return is_counted;
}

void count_files(const struct files *files, size_t jobs, take_counted_file *take, void *taker)
{
    if (jobs > files->count) jobs = files->count;
    if (jobs > files_within_budget()) jobs = files_within_budget();
    if (jobs > 1 && count_in_parallel(files, jobs, take, taker)) return;
    count_in_turn(files, take, taker);
}
