/* turns.h: has the server of a session take what has come, and does what it asks for. */
#ifndef SAMHOST_SESSION_TURNS_H
#define SAMHOST_SESSION_TURNS_H

#include "session/ending.h"

struct session;

/* Has the server take what was read, as far as there is memory, and does what it asks for. Returns why the session ends, if it does. */
enum ending take_turns(struct session *session);

/* The same for a session that ends then, also where memory is out. What can't be taken in a while is lost. */
enum ending take_all(struct session *session);

/* Has the server take what was read, for the counts of its link, once nothing is done any more; notes whether memory is out for that. */
void take_no_more(struct session *session);

#endif
