/* link_bytes.h: hellos and kinds of packets, as docs/reference/LINK.md has them. */
#ifndef LINK_BYTES_H
#define LINK_BYTES_H

#include "sulgrevad.h"

#define MARK "\x89samlink\1"
#define ID "a session's name"
#define EIGHT(byte) "\0\0\0\0\0\0\0" byte
#define HELLO(what, attempt, received) MARK what ID EIGHT(attempt) EIGHT(received)

/* The kinds of packets. */
#define DATA "\1"
#define NOTE "\2"
#define ACKNOWLEDGEMENT "\3"
#define ASK "\4"

static const uint8_t *const id = (const uint8_t *)ID;

#endif
