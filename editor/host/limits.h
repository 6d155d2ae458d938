/* limits.h: limits of a session and of what is read at once. */
#ifndef SAMHOST_LIMITS_H
#define SAMHOST_LIMITS_H

#include "sulgrevad.h"

enum {
    ALL_TAGS = 65536,            /* tags of a session */
    MOST_RUNES = SAM_MOST_RUNES, /* runes of a text */
    MOST_BYTES = 4 * MOST_RUNES, /* bytes of a text */
    MOST_IN_NAME = 64,           /* runes of a name */
    NAME_ROOM = 256,             /* bytes of the longest name */
    BASE_ROOM = 201,             /* bytes of what names of a file's copies begin with, and the zero after it */
    PIECE = 65536                /* bytes that are read or written at once */
};

#endif
