/* home_keeper.h: keeps the folder of a session that stays, which somebody may remove, or a file in it, while its samhost lives. */
#ifndef SAMHOST_SESSION_HOME_KEEPER_H
#define SAMHOST_SESSION_HOME_KEEPER_H

#include <stdbool.h>

struct session;

/* Makes the socket in the folder, in the place of an earlier one, and takes connections there from now on. The system wakes samhost when a
 * name in that folder changes. */
int listen_in_home(struct session *session);

/* Takes from the system what it says of such changes: who looks at the folder sees them. */
void forget_changes(struct session *session);

/* Whether the folder has all by which the session is found again: its journal, which is open, the lock and the socket. */
bool is_home_whole(const struct session *session);

/* Has the folder be there, with the lock and the socket; the journal is its own matter. EWOULDBLOCK where a samhost has the lock for now,
 * OTHER_HAS_IT where another one has gone on with the session. */
int mend_home(struct session *session);

#endif
