/* takeover.h: another terminal takes a session over. */
#ifndef SAMHOST_SESSION_TAKEOVER_H
#define SAMHOST_SESSION_TAKEOVER_H

#include "sulgrevad.h"

struct caller;
struct session;

/* Has the terminal of a hello, which is whole, take the session over, which has no connection then. Where it is refused nothing has
 * changed. */
sam_status take_over(struct session *session, const struct caller *caller);

#endif
