/*
 * edited_text.h: the text of the file EDITED as runes, and calls that are made again where memory is refused. Each program that includes it
 * keeps what its editor shows so.
 */
#ifndef EDITED_TEXT_H
#define EDITED_TEXT_H

#include "wanting.h"

enum { MOST = 8192, EDITED = 1, COMMANDS = 2 };

/* A text of runes, or gaps. */
struct text {
    uint32_t runes[MOST], len;
};

/* The call is made until memory for it was there. */
#define DONE(call)                                                                                                                         \
    do {                                                                                                                                   \
        sam_status done;                                                                                                                   \
        while ((done = (call)) == SAM_NO_MEMORY || done == SAM_UNFINISHED)                                                                 \
            ;                                                                                                                              \
        WANT(done, SAM_OK);                                                                                                                \
    } while (0)

/* `gone` runes from the place on give way to these. */
static inline void change(struct text *text, uint32_t place, uint32_t gone, const uint32_t *runes, uint32_t came)
{
    WANT(place + gone <= text->len && text->len - gone + came <= MOST, 1);
    memmove(text->runes + place + came, text->runes + place + gone, (text->len - place - gone) * sizeof *runes);
    memcpy(text->runes + place, runes, came * sizeof *runes);
    text->len = text->len - gone + came;
}

#endif
