/* event_loop.c: times, and signals. A while after the last message texts are saved aside. */
#define _XOPEN_SOURCE 700
#include <stddef.h>
#include <time.h>

#include "net/event_loop.h"
#include "session/session.h"

enum {
    IDLE = 2000,            /* milliseconds of quiet after which changed texts are saved aside */
    LONGEST_UNSAVED = 10000 /* milliseconds after which they are, while messages still come */
};

static volatile sig_atomic_t was_signalled;

/* ---- When texts are saved aside ---- */

int64_t now(void)
{
    struct timespec time = {0};

    clock_gettime(CLOCK_MONOTONIC, &time);
    return (int64_t)time.tv_sec * 1000 + time.tv_nsec / 1000000;
}

void delay_save(struct due *due)
{
    due->last = now();
    if (!due->is_waiting)
        due->first = due->last;
    due->is_waiting = true;
}

int64_t earlier(int64_t one, int64_t other)
{
    return one < 0 || (other >= 0 && other < one) ? other : one;
}

int64_t save_is_due_in(const struct session *session)
{
    const struct due *due = &session->due;
    int64_t left = earlier(due->last + IDLE, due->first + LONGEST_UNSAVED) - now();

    return !due->is_waiting ? -1 : left > 0 ? left : 0;
}

/* Where that fails it is tried again after LONGEST_UNSAVED, or at the next quiet. */
bool save_due(struct session *session)
{
    struct due *due = &session->due;

    if (save_is_due_in(session) != 0)
        return false;
    due->is_waiting = !save_changed(session);
    due->first = now();
    due->last = due->first + LONGEST_UNSAVED - IDLE;
    return true;
}

/* ---- Signals ---- */

bool is_signalled(void)
{
    return was_signalled;
}

static void on_signal(int number)
{
    (void)number;
    was_signalled = 1;
}

/* Those that end the session are let in only where the program sleeps, so a file is written whole. */
void set_signals(sigset_t *mask)
{
    const int ends[] = {SIGTERM, SIGHUP, SIGINT, SIGQUIT, SIGUSR1, SIGUSR2, SIGXCPU}; /* batch systems send some before a limit */
    struct sigaction action = {.sa_handler = on_signal};
    sigset_t blocked;

    sigemptyset(&blocked);
    sigemptyset(&action.sa_mask);
    for (size_t at = 0; at < sizeof ends / sizeof ends[0]; at++) {
        sigaddset(&blocked, ends[at]);
        sigaction(ends[at], &action, NULL);
    }
    sigprocmask(SIG_BLOCK, &blocked, mask);
    for (size_t at = 0; at < sizeof ends / sizeof ends[0]; at++)
        sigdelset(mask, ends[at]);
    action.sa_handler = SIG_IGN;
    sigaction(SIGPIPE, &action, NULL);
    sigaction(SIGXFSZ, &action, NULL); /* a write then fails, as it does on a full disk */
}
