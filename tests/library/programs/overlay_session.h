/*
 * overlay_session.h: a session of an overlay with a host, in which calls that are said to take no memory ask for none (reading.h). What
 * overlay.c and overlay_requests.c share.
 */
#ifndef OVERLAY_SESSION_H
#define OVERLAY_SESSION_H

#include "reading.h"

#include "wanting.h"

enum { ROOM = 64, GAP_SIGN = '_' };

static inline sam_status event_of(sam_overlay *overlay, sam_event_kind kind, uint16_t tag, uint32_t start, uint32_t number)
{
    sam_event event = {.kind = kind, .start = start, .number = number, .tag = tag, .version = 2};
    return sam_overlay_bring_event(overlay, &event, NULL, 0);
}

/* What is shown of a file is this text, `_` for each gap. */
static inline void shows(sam_overlay *overlay, uint16_t tag, const char *text)
{
    uint32_t runes[ROOM], count = 0, len = 0;
    WANT(READ(sam_overlay_read(overlay, tag, 0, runes, ROOM, &count)), SAM_OK);
    WANT(READ(sam_overlay_len(overlay, tag, &len)), SAM_OK);
    WANT(count, strlen(text));
    WANT(len, count);
    for (uint32_t i = 0; i < count; i++)
        WANT(runes[i], text[i] == GAP_SIGN ? SAM_GAP : (uint32_t)text[i]);
}

/* The overlay goes on until nothing is left, or a lock holds an event back; no step changes what is shown but as was told, and none is a
 * request. */
static inline void go_on(sam_overlay *overlay)
{
    sam_did did;
    sam_splice splice;
    do {
        WANT(sam_overlay_step(overlay, &did), SAM_OK);
        WANT(did.request, 0);
        while (READ(sam_overlay_next_splice(overlay, &splice)) == SAM_OK)
            ;
    } while (did.step != SAM_STEP_IDLE && did.step != SAM_STEP_LOCKED);
}

static inline void up(sam_overlay *overlay, sam_host *host)
{
    uint8_t piece[ROOM];
    size_t pending = 1, count = 0;
    while (pending > 0) {
        WANT(READ(sam_overlay_take_out(overlay, piece, sizeof piece, &count)), SAM_OK);
        WANT(sam_host_feed(host, piece, count), SAM_OK);
        WANT(READ(sam_overlay_pending(overlay, &pending)), SAM_OK);
    }
}

/* All that is pending comes down in one piece; the steps are the caller's. */
static inline void bring_down(sam_overlay *overlay, sam_host *host)
{
    static uint8_t piece[4096];
    size_t count = 0;
    WANT(sam_host_take_out(host, piece, sizeof piece, &count), SAM_OK);
    WANT(sam_overlay_bring(overlay, piece, count), SAM_OK);
}

static inline void settle(sam_overlay *overlay, sam_host *host)
{
    for (int turn = 0; turn < 4; turn++) {
        go_on(overlay);
        up(overlay, host);
        bring_down(overlay, host);
        go_on(overlay);
    }
}

/* A host with the file `a` of this text, and an overlay that has opened it; loaded, or all of it gaps. */
static inline void open_both(sam_host *host, sam_overlay *overlay, const char *text, bool loaded)
{
    uint16_t tag = 0;
    WANT(sam_host_new(host), SAM_OK);
    WANT(sam_host_add_file(host, BYTES("a"), (const uint8_t *)text, strlen(text), &tag), SAM_OK);
    WANT(sam_overlay_new(overlay), SAM_OK);
    WANT(sam_overlay_new(overlay), SAM_MADE);
    WANT(event_of(overlay, SAM_EVENT_OFFER_VERSION, 0, 0, 0), SAM_OK);
    settle(overlay, host);
    WANT(event_of(overlay, SAM_EVENT_OPEN, 1, 0, 0), SAM_OK);
    settle(overlay, host);
    if (loaded) {
        WANT(event_of(overlay, SAM_EVENT_LOAD, 1, 0, (uint32_t)strlen(text)), SAM_OK);
        settle(overlay, host);
        shows(overlay, 1, text);
    }
}

static inline void free_both(sam_host *host, sam_overlay *overlay)
{
    WANT(sam_host_free(host), SAM_OK);
    WANT(sam_overlay_free(overlay), SAM_OK);
    WANT(sam_overlay_free(overlay), SAM_NO_HANDLE);
}

static inline uint32_t waiting(sam_overlay *overlay)
{
    uint32_t runes = 9;
    WANT(READ(sam_overlay_waiting(overlay, 1, &runes)), SAM_OK);
    return runes;
}

static inline sam_put put(sam_overlay *overlay)
{
    sam_put put = SAM_PUT_WIDTH;
    WANT(sam_overlay_put_next(overlay, 1, &put), SAM_OK);
    return put;
}

/* A step of this kind, and that nothing which is shown changed. */
static inline void quiet_step(sam_overlay *overlay, sam_step step)
{
    sam_did did;
    sam_splice splice = {.count = 7};
    WANT(sam_overlay_step(overlay, &did), SAM_OK);
    WANT(did.step, step);
    WANT(READ(sam_overlay_next_splice(overlay, &splice)), SAM_NONE);
    WANT(splice.count, 7);
}

static inline void wants_splice(sam_overlay *overlay, sam_splice_kind kind, uint32_t place, uint32_t count)
{
    sam_splice splice;
    WANT(READ(sam_overlay_next_splice(overlay, &splice)), SAM_OK);
    WANT(splice.kind, kind);
    WANT(splice.place, place);
    WANT(splice.count, count);
    WANT(splice.tag, 1);
}

#endif
