/* daemon.h: begins a session that stays in a process of its own, or finds it again, and the present process relays to it; or begins one in
 * the present process, which ends with its line. */
#ifndef SAMHOST_SESSION_DAEMON_H
#define SAMHOST_SESSION_DAEMON_H

#include <stdbool.h>

struct home;
struct options;

/* Relays to a session for a terminal that takes it over: to the only one where no name is given. Returns the exit status. */
int take(const char *name);

/* Begins a session that stays, in a process of its own, and relays. Returns the exit status, also in that process. */
int begin_to_stay(char **paths, int count, const struct options *options);

/* Serves a session over standard input and output until that line ends. Returns the exit status. */
int serve_streams(char **paths, int count, const struct options *options);

/* Relays to a session that stays. Returns the exit status. */
int attach(const char *name);

/* Ends a session whose samhost is gone, perhaps since it was asked to end (`has_ended`): saves its texts aside. Its folder is locked.
 * Returns the exit status. */
int end_without_samhost(struct home *home, bool has_ended);

#endif
