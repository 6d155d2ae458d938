/*
 * fronting.h: a host with its end of a link, and a client, in one process. The program that includes it moves their bytes, and its own copy
 * of the file EDITED takes what its user types, and then the splices alone: after each step it is what is shown. A call that wants memory
 * is made again. What a connection has on its way is lost where it breaks.
 */
#ifndef FRONTING_H
#define FRONTING_H

#include "edited_text.h"

enum { PAUSE = 60000 };

static sam_host host = SAM_HOST_INIT;
static sam_link host_end = SAM_LINK_INIT;
static sam_client client = SAM_CLIENT_INIT;
static uint64_t now = 1000, attempt; /* of the connection that stands; 0: none */
static unsigned long steps_told, splices_told, notes_up, notes_down, refused, requests_told;
static uint64_t newest_request, told_request; /* the numbers of the request that was asked for last, and of the one that was told last */
static uint64_t refused_event, refused_request;
static sam_status refused_why;

static struct text copy;

/* ---- What is told ---- */

static inline void same_as_shown(void)
{
    static uint32_t runes[MOST];
    uint32_t count = 0, len = 0;
    sam_file file;
    WANT(sam_client_file(&client, EDITED, &file), SAM_OK);
    if (!file.is_open)
        return;
    WANT(sam_client_read(&client, EDITED, 0, runes, MOST, &count), SAM_OK);
    WANT(sam_client_len(&client, EDITED, &len), SAM_OK);
    WANT(count == copy.len && len == copy.len, 1);
    WANT(memcmp(runes, copy.runes, count * sizeof *runes), 0);
}

static inline void take_splice(const sam_splice *splice)
{
    static uint32_t came[MOST];
    uint32_t count = 0;
    if (splice->tag != EDITED)
        return;
    splices_told++;
    if (splice->kind == SAM_SPLICE_EMPTIED) {
        copy.len = 0;
        return;
    }
    bool comes = splice->kind != SAM_SPLICE_WENT;
    if (comes) {
        WANT(sam_client_read(&client, EDITED, splice->place, came, splice->count, &count), SAM_OK);
        WANT(count, splice->count);
    }
    change(&copy, splice->place, splice->kind == SAM_SPLICE_CAME ? 0 : splice->count, came, comes ? splice->count : 0);
}

static inline void hear(sam_client_event told, const sam_did *did)
{
    if (did->request != 0) {
        WANT(told_request < did->request && did->request <= newest_request, 1);
        told_request = did->request;
        requests_told++;
    }
    if (told == SAM_CLIENT_STEPPED)
        steps_told++;
    if (told == SAM_CLIENT_NOTE)
        notes_down++;
    if (told == SAM_CLIENT_REFUSED) {
        refused++;
        refused_event = did->event;
        refused_request = did->request;
        refused_why = did->why;
    }
}

/* One thing is told, with its splices. */
static inline sam_client_event next_event(void)
{
    sam_client_event told = SAM_CLIENT_WIDTH;
    sam_did did;
    sam_splice splice;
    DONE(sam_client_next_event(&client, now, &told, &did));
    while (sam_client_next_splice(&client, &splice) == SAM_OK)
        take_splice(&splice);
    same_as_shown();
    hear(told, &did);
    return told;
}

static inline void go_on(void)
{
    while (next_event() != SAM_CLIENT_IDLE)
        ;
}

/* ---- The host's program ---- */

static inline void feed_host(const uint8_t *bytes, size_t count)
{
    sam_status status;
    while ((status = sam_host_feed(&host, bytes, count)) == SAM_NO_MEMORY)
        ;
    while (status == SAM_NO_MEMORY || status == SAM_UNFINISHED)
        status = sam_host_feed(&host, NULL, 0);
    WANT(status, SAM_OK);
}

/* The host answers all that its end of the link has. */
static inline void host_turn(void)
{
    uint8_t bytes[SAM_LINK_MOST_NOTE];
    size_t len = 0;
    for (bool is_more = true; is_more;) {
        is_more = false;
        while (sam_link_take_in(&host_end, bytes, sizeof bytes, &len) == SAM_OK && len > 0)
            feed_host(bytes, len);
        while (sam_link_next_note(&host_end, bytes, sizeof bytes, &len) == SAM_OK)
            notes_up++, is_more = true;
    }
    while (sam_host_take_out(&host, bytes, sizeof bytes, &len) == SAM_OK && len > 0)
        DONE(sam_link_put(&host_end, bytes, len));
}

/* ---- Connections ---- */

/* Moves bytes up, at most so many. Returns whether there were some. */
static inline bool carry_up(size_t most)
{
    uint8_t piece[SAM_LINK_MOST_NOTE];
    size_t count = 0;
    WANT(sam_client_take_out(&client, attempt, piece, most, &count), SAM_OK);
    if (count > 0)
        DONE(sam_link_feed(&host_end, attempt, piece, count));
    host_turn();
    return count > 0;
}

static inline bool carry_down(size_t most)
{
    uint8_t piece[SAM_LINK_MOST_NOTE];
    size_t count = 0;
    WANT(sam_link_take_out(&host_end, attempt, piece, most, &count), SAM_OK);
    if (count > 0)
        DONE(sam_client_receive(&client, attempt, piece, count, now));
    go_on();
    return count > 0;
}

/* What is to be done at this time, until there is nothing. Returns whether a connection is wanted. */
static inline bool wants_connection(void)
{
    bool wants = false;
    for (uint32_t tick = SAM_TICK_ASK; tick != SAM_TICK_NOTHING; wants |= tick == SAM_TICK_CONNECT)
        WANT(sam_client_tick(&client, now, &tick), SAM_OK);
    return wants;
}

/* The program opens a connection, once one is wanted, and the host has its hello. */
static inline void connect(void)
{
    uint8_t hello[SAM_LINK_HELLO_BYTES];
    size_t count = 0;
    while (!wants_connection())
        now += PAUSE;
    WANT(sam_client_connected(&client, now, &attempt), SAM_OK);
    WANT(sam_client_take_out(&client, attempt, hello, sizeof hello, &count), SAM_OK);
    WANT(count, sizeof hello);
    DONE(sam_link_answer(&host_end, hello, sizeof hello));
}

/* The connection breaks, and what it had on its way is lost: so much up, and so much down. */
static inline void cut(size_t up, size_t down)
{
    uint8_t lost[SAM_LINK_MOST_NOTE];
    size_t count = 0;
    WANT(sam_client_take_out(&client, attempt, lost, up, &count), SAM_OK);
    WANT(sam_link_take_out(&host_end, attempt, lost, down, &count), SAM_OK);
    WANT(sam_client_broken(&client, attempt, now), SAM_OK);
    WANT(sam_link_broken(&host_end, attempt), SAM_OK);
    attempt = 0;
}

/* All goes to the other side, and all answers come, over the connection that stands. */
static inline void settle(void)
{
    go_on();
    for (bool moved = true; moved;) {
        moved = carry_up(SAM_LINK_MOST_NOTE);
        while (carry_down(SAM_LINK_MOST_NOTE))
            moved = true;
    }
}

/* ---- The user ---- */

static inline sam_status ask_for(sam_event_kind kind, uint16_t tag, uint32_t start, uint32_t number)
{
    sam_event event = {.kind = kind, .start = start, .number = number, .tag = tag, .version = 2};
    return sam_client_ask(&client, &event, NULL, 0, &newest_request);
}

/* The user types these runes in the place of `gone` others. */
static inline void type(uint32_t place, uint32_t gone, const char *utf8, const uint32_t *runes, uint32_t came)
{
    DONE(sam_client_replace(&client, EDITED, place, place + gone, (const uint8_t *)utf8, strlen(utf8)));
    change(&copy, place, gone, runes, came);
    same_as_shown();
}

#endif
