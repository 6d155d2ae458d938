/* relay.h: carries bytes between standard input and output and the socket of a session that stays, and knows nothing of them. */
#ifndef SAMHOST_NET_RELAY_H
#define SAMHOST_NET_RELAY_H

/* Carries bytes until either side ends. Returns the exit status. */
int relay(int line);

#endif
