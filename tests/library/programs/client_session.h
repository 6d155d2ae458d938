/*
 * client_session.h: a session of a client with a host, in which calls that are said to take no memory ask for none (reading.h). What
 * client.c, client_line.c and client_edits.c share.
 */
#ifndef CLIENT_SESSION_H
#define CLIENT_SESSION_H

#include "reading.h"

#include "frame_bytes.h"
#include "fronting.h"
#include "link_bytes.h"

enum { ROOM = 64, GAP_SIGN = '_' };

static inline sam_line_details details_of(void)
{
    sam_line_details details;
    WANT(READ(sam_client_describe(&client, now, &details)), SAM_OK);
    return details;
}

static inline void begin_client(bool take_over)
{
    now = 1000;
    attempt = newest_request = told_request = 0;
    copy.len = 0;
    WANT(sam_client_new(&client, id, take_over, now), SAM_OK);
    WANT(sam_client_new(&client, id, take_over, now), SAM_MADE);
}

static inline void end_client(void)
{
    WANT(READ(sam_client_free(&client)), SAM_OK);
    WANT(sam_client_free(&client), SAM_NO_HANDLE);
}

/* What is shown of a file is this text, `_` for each gap. */
static inline void shows(uint16_t tag, const char *text)
{
    uint32_t runes[ROOM], count = 0, len = 0;
    WANT(READ(sam_client_read(&client, tag, 0, runes, ROOM, &count)), SAM_OK);
    WANT(READ(sam_client_len(&client, tag, &len)), SAM_OK);
    WANT(count, strlen(text));
    WANT(len, count);
    for (uint32_t i = 0; i < count; i++)
        WANT(runes[i], text[i] == GAP_SIGN ? SAM_GAP : (uint32_t)text[i]);
}

/* A host with the file `a` of this text, and a client that has opened it; loaded, or all of it gaps. */
static inline void open_both(const char *text, bool loaded)
{
    uint16_t tag = 0;
    WANT(sam_host_new(&host), SAM_OK);
    WANT(sam_link_new(&host_end, SAM_LINK_HOST, id), SAM_OK);
    WANT(sam_host_add_file(&host, BYTES("a"), (const uint8_t *)text, strlen(text), &tag), SAM_OK);
    begin_client(false);
    connect();
    WANT(ask_for(SAM_EVENT_OFFER_VERSION, 0, 0, 0), SAM_OK);
    settle();
    WANT(ask_for(SAM_EVENT_OPEN, 1, 0, 0), SAM_OK);
    settle();
    if (loaded) {
        WANT(ask_for(SAM_EVENT_LOAD, 1, 0, (uint32_t)strlen(text)), SAM_OK);
        settle();
        shows(1, text);
    }
}

static inline void free_both(void)
{
    WANT(sam_host_free(&host), SAM_OK);
    WANT(sam_link_free(&host_end), SAM_OK);
    end_client();
}

static inline bool has_all(void)
{
    bool has = false;
    WANT(READ(sam_client_has_all(&client, &has)), SAM_OK);
    return has;
}

static inline bool is_unsaved(uint16_t tag)
{
    bool unsaved = false;
    WANT(READ(sam_client_is_unsaved(&client, tag, &unsaved)), SAM_OK);
    return unsaved;
}

static inline uint32_t waiting(void)
{
    uint32_t runes = 9;
    WANT(READ(sam_client_waiting(&client, 1, &runes)), SAM_OK);
    return runes;
}

/* ---- Frames ---- */

/* The client gets a frame that answers all messages; what it does is the caller's. */
static inline void tell(uint8_t *frame, size_t len)
{
    uint8_t piece[SAM_LINK_MOST_NOTE];
    size_t count = 0;
    sam_state state;
    WANT(READ(sam_client_state(&client, &state)), SAM_OK);
    frame[LAST_OF_STAMP] = (uint8_t)state.sent;
    WANT(sam_link_put(&host_end, frame, len), SAM_OK);
    WANT(sam_link_take_out(&host_end, attempt, piece, sizeof piece, &count), SAM_OK);
    WANT(sam_client_receive(&client, attempt, piece, count, now), SAM_OK);
}

static inline sam_did steps(sam_client_event told)
{
    sam_client_event is = SAM_CLIENT_WIDTH;
    sam_did did;
    WANT(sam_client_next_event(&client, now, &is, &did), SAM_OK);
    WANT(is, told);
    return did;
}

static inline void wants_splice(sam_splice_kind kind, uint32_t place, uint32_t count, uint16_t tag)
{
    sam_splice splice;
    WANT(READ(sam_client_next_splice(&client, &splice)), SAM_OK);
    WANT(splice.kind, kind);
    WANT(splice.place, place);
    WANT(splice.count, count);
    WANT(splice.tag, tag);
}

#endif
