#include "commands/stop.h"

#include <errno.h>
#include <poll.h>
#include <pthread.h>
#include <stddef.h>

/* How many milliseconds a signal that another thread handled may go unnoticed. */
enum { NOTICE_TIME = 500 };

static const int signals[] = {SIGINT, SIGTERM, SIGHUP};

enum { SIGNALS = sizeof signals / sizeof *signals };

volatile sig_atomic_t stop_signal;

static volatile sig_atomic_t is_spared;  /* the next SIGINT is ignored */
static volatile sig_atomic_t is_reading; /* an input is open */
static bool was_spared;
static size_t inputs; /* number of open inputs */
static pthread_mutex_t lock = PTHREAD_MUTEX_INITIALIZER;

/* Notes a signal. */
static void note_signal(int number)
{
    if (number == SIGINT && is_spared) {
        is_spared = 0;
        if (!is_reading) signal(SIGINT, SIG_DFL);
        return;
    }
    stop_signal = number;
    for (size_t i = 0; i < SIGNALS; i++) signal(signals[i], SIG_DFL);
}

/* Handles a signal whose action is `from` by `to`. A call that writes goes on after the signal. */
static void change_action(int number, void (*from)(int), void (*to)(int))
{
    struct sigaction action = {.sa_handler = to, .sa_flags = SA_RESTART}, before;
    if (sigaction(number, NULL, &before) == 0 && before.sa_handler == from) sigaction(number, &action, NULL);
}

void spare_interrupt(void)
{
    pthread_mutex_lock(&lock);
    if (!was_spared) {
        is_spared = was_spared = true;
        change_action(SIGINT, SIG_DFL, note_signal);
    }
    pthread_mutex_unlock(&lock);
}

void begin_stopping(void)
{
    pthread_mutex_lock(&lock);
    is_reading = true;
    if (inputs++ == 0 && !stop_signal)
        for (size_t i = 0; i < SIGNALS; i++) change_action(signals[i], SIG_DFL, note_signal);
    pthread_mutex_unlock(&lock);
}

void end_stopping(void)
{
    pthread_mutex_lock(&lock);
    if (--inputs == 0) {
        is_reading = false;
        for (size_t i = 0; i < SIGNALS; i++)
            if (signals[i] != SIGINT || !is_spared) change_action(signals[i], note_signal, SIG_DFL);
    }
    pthread_mutex_unlock(&lock);
}

bool wait_for_bytes(int descriptor)
{
    struct pollfd place = {.fd = descriptor, .events = POLLIN};
    int count = 0;
    while (!stop_signal && (count = poll(&place, 1, NOTICE_TIME)) <= 0)
        if (count < 0 && errno != EINTR) return true; /* reading says what is wrong */
    return !stop_signal;
}

void end_by_signal(void)
{
    if (!stop_signal) return;
    signal(stop_signal, SIG_DFL);
    raise(stop_signal);
}
