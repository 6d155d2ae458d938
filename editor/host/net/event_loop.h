/* event_loop.h: times, and signals. */
#ifndef SAMHOST_NET_EVENT_LOOP_H
#define SAMHOST_NET_EVENT_LOOP_H

#include <signal.h>
#include <stdbool.h>
#include <stdint.h>

struct due;
struct session;

/* Lets signals that ask for it end the session (SIGTERM, SIGHUP, SIGINT and others), and none that may come of its work. */
void set_signals(sigset_t *mask);

/* Whether a signal has come that ends the session. */
bool is_signalled(void);

/* Milliseconds of a clock that only goes forward. */
int64_t now(void);

/* Notes that something has come, which may have changed a text. */
void delay_save(struct due *due);

/* Saves changed texts aside where it is time. Returns whether it was. */
bool save_due(struct session *session);

/* The earlier of two times; -1 is no time. */
int64_t earlier(int64_t one, int64_t other);

/* In how many milliseconds save_due is to be called; -1 where it isn't. */
int64_t save_is_due_in(const struct session *session);

#endif
