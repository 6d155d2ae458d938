/*
 * session_local.h: the same doings without a network: an overlay and a host to which each is carried before the next one. No memory is
 * refused to them, and what they hold is counted apart.
 */
#ifndef SESSION_LOCAL_H
#define SESSION_LOCAL_H

#include "met.h"
#include "short_memory.h"

enum { LOCAL_PIECE = 4096, MOST_REFUSED = 4096 };

static sam_host local_host;
static sam_overlay local;
static size_t local_held, held_before;
static sam_status local_refused[MOST_REFUSED]; /* why events were refused, in their order */
static size_t local_refused_count;

static void begin_local(void)
{
    spare_memory(true);
    held_before = held_memory();
}

static void end_local(void)
{
    local_held += held_memory() - held_before;
    spare_memory(false);
}

/* ---- All is carried ---- */

/* Frames are received and events act until nothing moves. */
static void step_local(void)
{
    sam_did did;
    sam_splice splice;
    do {
        WANT(sam_overlay_step(&local, &did), SAM_OK);
        while (sam_overlay_next_splice(&local, &splice) == SAM_OK)
            ;
    } while (did.step != SAM_STEP_IDLE && did.step != SAM_STEP_LOCKED);
}

/* The next edit that waits is put, and acts. Returns whether there was one. */
static bool put_local(void)
{
    uint16_t tag = 0;
    sam_put put = SAM_PUT_NOTHING;
    if (sam_overlay_next_waiting(&local, 0, &tag) != SAM_OK)
        return false;
    WANT(sam_overlay_put_next(&local, tag, &put), SAM_OK);
    step_local();
    return put == SAM_PUT_EDIT;
}

static bool carry_local(void)
{
    uint8_t piece[LOCAL_PIECE];
    size_t up = 0, down = 0;
    WANT(sam_overlay_take_out(&local, piece, sizeof piece, &up), SAM_OK);
    WANT(sam_host_feed(&local_host, piece, up), SAM_OK);
    WANT(sam_host_take_out(&local_host, piece, sizeof piece, &down), SAM_OK);
    WANT(sam_overlay_bring(&local, piece, down), SAM_OK);
    step_local();
    return up > 0 || down > 0;
}

static void settle_local(void)
{
    uint64_t event = 0;
    sam_status why;
    do
        step_local();
    while (put_local() || carry_local());
    while (sam_overlay_next_refusal(&local, &event, &why) == SAM_OK) {
        WANT(local_refused_count < MOST_REFUSED, 1);
        local_refused[local_refused_count++] = why;
    }
}

/* ---- Doings ---- */

static void ask_local(const sam_event *event, const uint8_t *text, size_t len)
{
    const sam_event flush = {.kind = SAM_EVENT_FLUSH};
    begin_local();
    WANT(sam_overlay_bring_event(&local, event, text, len), SAM_OK);
    settle_local();
    WANT(sam_overlay_bring_event(&local, &flush, NULL, 0), SAM_OK); /* a client sends typed runes by itself */
    settle_local();
    end_local();
}

static void replace_local(uint16_t tag, uint32_t start, uint32_t end, const uint8_t *text, size_t len)
{
    begin_local();
    WANT(sam_overlay_replace(&local, tag, start, end, text, len), SAM_OK);
    settle_local();
    end_local();
}

static void join_local(const char *name, const struct text *text)
{
    static uint8_t bytes[MOST_RUNE_BYTES * MOST_KEPT];
    uint16_t tag = 0;
    begin_local();
    WANT(sam_host_add_file(&local_host, (const uint8_t *)name, strlen(name), bytes, spell(text->runes, text->len, bytes), &tag), SAM_OK);
    end_local();
}

static void make_local(void)
{
    begin_local();
    local_refused_count = 0;
    WANT(sam_host_new(&local_host), SAM_OK);
    WANT(sam_overlay_new(&local), SAM_OK);
    end_local();
}

static void free_local(void)
{
    begin_local();
    WANT(sam_host_free(&local_host), SAM_OK);
    WANT(sam_overlay_free(&local), SAM_OK);
    end_local();
}

/* ---- Its texts ---- */

static void local_text(struct text *text, uint16_t tag)
{
    static uint8_t bytes[MOST_RUNE_BYTES * MOST_KEPT];
    size_t len = 0;
    uint32_t runes = 0;
    WANT(sam_host_text(&local_host, tag, 0, bytes, sizeof bytes, &len, &runes), SAM_OK);
    read_text(text, bytes, len);
    WANT(text->len, runes);
}

#endif
