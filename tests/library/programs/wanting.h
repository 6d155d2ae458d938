/*
 * What the programs beside it need that want a status, a number or a text of each call: they end with status 1 and the line that failed.
 */
#ifndef WANTING_H
#define WANTING_H

#include "sulgrevad.h"

#include <stdio.h>
#include <stdlib.h>
#include <string.h>

#define WANT(call, should) want(#call, __LINE__, (unsigned long)(call), (unsigned long)(should))
#define BYTES(text) (const uint8_t *)(text), sizeof(text) - 1

static inline void want(const char *what, int line, unsigned long is, unsigned long should)
{
    if (is == should)
        return;
    printf("line %d: %s is %lu and should be %lu\n", line, what, is, should);
    exit(1);
}

/* Carries bytes between the two until neither has any, seven at a time. */
static inline void carry(sam_term *term, sam_host *host)
{
    uint8_t piece[7];
    size_t up = 1, down = 1;
    while (up > 0 || down > 0) {
        WANT(sam_term_take_out(term, piece, sizeof piece, &up), SAM_OK);
        if (up > 0)
            WANT(sam_host_feed(host, piece, up), SAM_OK);
        WANT(sam_host_take_out(host, piece, sizeof piece, &down), SAM_OK);
        if (down > 0)
            WANT(sam_term_feed(term, piece, down), SAM_OK);
    }
}

/* The event that was put last is refused for this reason. */
static inline void wants_refusal(sam_term *term, sam_status should)
{
    uint64_t event, events;
    sam_status why;
    WANT(sam_term_next_refusal(term, &event, &why), SAM_OK);
    WANT(why, should);
    WANT(sam_term_events(term, &events), SAM_OK);
    WANT(event, events);
}

/* The host's whole text, of at most 256 bytes. */
static inline void same_text(sam_host *host, uint16_t tag, const char *text)
{
    uint8_t bytes[256];
    size_t len;
    uint32_t runes;
    WANT(sam_host_text(host, tag, 0, bytes, sizeof bytes, &len, &runes), SAM_OK);
    WANT(len, strlen(text));
    WANT(memcmp(bytes, text, len), 0);
}

#endif
