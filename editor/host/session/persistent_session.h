/* persistent_session.h: serves a session over its link: one that stays when its line breaks, or one that ends with it. */
#ifndef SAMHOST_SESSION_PERSISTENT_SESSION_H
#define SAMHOST_SESSION_PERSISTENT_SESSION_H

#include "sulgrevad.h"

struct session;

/* Sends what the server lets out over the newest connection, as much as goes without waiting. */
void write_line(struct session *session);

/* Tells the terminal that another one has the session now, as far as its line takes that without waiting. */
void say_the_last(struct session *session);

/* The server takes no more of what comes over the newest connection, for a reason. */
void break_line(struct session *session, sam_status why);

/* Forgets what has come or was to go over a connection that is over. */
void forget_pieces(struct session *session);

/* Serves a session over its link until it ends. Returns the exit status. */
int stay_and_serve(struct session *session);

#endif
