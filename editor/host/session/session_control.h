/* session_control.h: lists the sessions that stay, ends one, and has one show a file. */
#ifndef SAMHOST_SESSION_SESSION_CONTROL_H
#define SAMHOST_SESSION_SESSION_CONTROL_H

#include <stdbool.h>

struct session;

/* Lists the sessions that stay; ends one. Both return the exit status. */
int list_sessions(void);
int end_session(const char *name);

/* Has the terminal of the session of a name show a file, at a line where one is named; where the name is NULL that of the newest one that
 * has a terminal, else of the newest. Waits until the file is closed where `waits` says so: then the exit status is 0 only if it was
 * written. */
int open_in_session(const char *name, const char *path, const char *line, bool waits);

/* Says which files of a new session another one has changed and not written, and how that is taken over. */
void report_others(struct session *session);

/* Writes into the folder of a session what the list says of it. */
void write_about(const struct session *session);

#endif
