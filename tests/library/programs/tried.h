/*
 * tried.h: calls that are made again where memory is out, as sulgrevad.h says. A call that was not taken has to leave all that the readers
 * say as it was. One that was taken and waits has either not begun, or has done all but to have its bytes pending.
 */
#ifndef TRIED_H
#define TRIED_H

#include "frames.h"
#include "showing.h"

enum side { HOST, TERM };

/* What the readers say of a side: what may wait there, and all else. */
struct state {
    char counts[256], rest[sizeof shown];
    size_t pending;
};
static struct state before, half, now;

static void read_state(enum side side, struct state *state)
{
    shown_len = 0;
    side == HOST ? put_host_counts() : put_term_counts();
    memcpy(state->counts, shown, shown_len + 1);
    shown_len = 0;
    side == HOST ? put_host() : put_term();
    memcpy(state->rest, shown, shown_len + 1);
    want("pending", side == HOST ? sam_host_pending(&host, &state->pending) : sam_term_pending(&term, &state->pending));
}

static void want_same(const char *what, const char *is, const char *should)
{
    if (strcmp(is, should) == 0)
        return;
    printf("%s: it is\n%.999sand should be\n%.999s", what, is, should);
    exit(1);
}

static void want_as_before(enum side side, const char *what)
{
    read_state(side, &now);
    want_same(what, now.counts, before.counts);
    want_same(what, now.rest, before.rest);
}

/* What the readers say while a call waits that was taken: as before it, or with all done, which `half` then has. */
static bool is_half_done(enum side side)
{
    uint64_t held = 0;
    sam_status status = side == HOST ? sam_host_finish(&host) : sam_term_finish(&term);
    if (side == TERM)
        want("held", sam_term_held(&term, &held));
    if (status != SAM_UNFINISHED && held == 0)
        fail("nothing waits, though the call says so", status);
    read_state(side, &now);
    if (strcmp(now.rest, before.rest) == 0)
        return false;
    half = now;
    return true;
}

typedef sam_status attempt(const void *what);

/* The status of a call that brings one frame or event, or several, once it is neither that of memory that is out nor of a wait. */
static sam_status tried(enum side side, attempt *call, const void *what, unsigned brings)
{
    bool is_half = false;
    read_state(side, &now); /* what is handed out once */
    read_state(side, &before);
    sam_status status;
    while ((status = call(what)) == SAM_NO_MEMORY)
        want_as_before(side, "after SAM_NO_MEMORY");
    while (status == SAM_UNFINISHED || status == SAM_NO_MEMORY) {
        is_half = is_half_done(side) || is_half;
        if (brings == 1 && now.pending != before.pending)
            fail("bytes are pending of a call that waits", (uint32_t)now.pending);
        status = side == HOST ? sam_host_feed(&host, NULL, 0) : sam_term_feed(&term, NULL, 0);
    }
    read_state(side, &now);
    if (is_half && brings == 1)
        want_same("after SAM_UNFINISHED", half.rest, now.rest);
    return status;
}

static sam_status feed_host(const void *what)
{
    const struct piece *piece = what;
    return sam_host_feed(&host, piece->bytes, piece->len);
}

static sam_status feed_term(const void *what)
{
    const struct piece *piece = what;
    return sam_term_feed(&term, piece->bytes, piece->len);
}

static sam_status fed(enum side side, const struct piece *piece)
{
    return tried(side, side == HOST ? feed_host : feed_term, piece, piece->frames);
}

/* A side takes this one frame. */
#define ASK(...)                                                                                                                           \
    do {                                                                                                                                   \
        struct piece asked = {0};                                                                                                          \
        add_message(&asked, __VA_ARGS__);                                                                                                  \
        want("a message", fed(HOST, &asked));                                                                                              \
    } while (0)
#define TELL(...)                                                                                                                          \
    do {                                                                                                                                   \
        struct piece told = {0};                                                                                                           \
        add_frame(&told, __VA_ARGS__);                                                                                                     \
        want("a frame", fed(TERM, &told));                                                                                                 \
    } while (0)

/* A side stops at the piece for this reason, and is else as it was. */
static void want_refused(enum side side, const struct piece *piece, sam_status why)
{
    sam_status status = fed(side, piece);
    if (status != why)
        fail("a piece that is to be refused", status);
    want_as_before(side, "after a refusal");
}

enum doing { TYPE, EDIT, SELECT, CUT, PASTE, VIEW, CHECK, VERSION, OPEN, OPEN_CMD, FLUSH_NOW };

struct event {
    enum doing doing;
    uint16_t tag;
    uint32_t p, q;
    const char *text;
};

static sam_status do_event(const void *what)
{
    const struct event *event = what;
    const uint8_t *text = (const uint8_t *)event->text;
    switch (event->doing) {
    case TYPE:
        return sam_term_type(&term, event->tag, text, strlen(event->text));
    case EDIT:
        return sam_term_edit(&term, event->tag, event->p, event->q, text, strlen(event->text));
    case SELECT:
        return sam_term_select(&term, event->tag, event->p, event->q);
    case CUT:
        return sam_term_cut(&term, event->tag);
    case PASTE:
        return sam_term_paste(&term, event->tag);
    case VIEW:
        return sam_term_view(&term, event->tag, event->p, event->q);
    case CHECK:
        return sam_term_check(&term, event->tag);
    case VERSION:
        return sam_term_offer_version(&term, (uint16_t)event->p);
    case OPEN:
        return sam_term_open(&term, event->tag);
    case OPEN_CMD:
        return sam_term_open_cmd(&term);
    default:
        return sam_term_flush_now(&term);
    }
}

/* The user does this. */
static inline void user(enum doing doing, uint16_t tag, uint32_t p, uint32_t q, const char *text)
{
    struct event event = {doing, tag, p, q, text};
    want("an event", tried(TERM, do_event, &event, 1));
}

/* What is pending at a side is what was pending before the call that was tried last, and this after it. It is taken out. */
static void want_pending(enum side side, const struct piece *wanted)
{
    static uint8_t bytes[2 * sizeof wanted->bytes];
    size_t count = 0;
    want("what is pending",
         side == HOST ? sam_host_take_out(&host, bytes, sizeof bytes, &count) : sam_term_take_out(&term, bytes, sizeof bytes, &count));
    if (count != before.pending + wanted->len)
        fail("the number of pending bytes", (uint32_t)count);
    if (memcmp(bytes + before.pending, wanted->bytes, wanted->len) != 0)
        fail("other bytes are pending", (uint32_t)count);
}

/* The host's text of a file. */
static void want_text(uint16_t tag, const char *text)
{
    char bytes[256];
    uint32_t runes = 0, len = 0;
    size_t count = 0;
    want("a text", sam_host_text(&host, tag, 0, (uint8_t *)bytes, sizeof bytes - 1, &count, &runes));
    want("its length", sam_host_len(&host, tag, &len));
    bytes[count] = 0;
    want_same("the host's text", bytes, text);
    if (runes != len)
        fail("the host's text has more", len);
}

/* What the terminal has of a file, `_` for each gap. */
static inline void want_rasp(uint16_t tag, const char *text)
{
    char bytes[256];
    uint32_t runes[sizeof bytes - 1], count = 0;
    want("a rasp", sam_term_read(&term, tag, 0, runes, sizeof bytes - 1, &count));
    for (uint32_t i = 0; i < count; i++)
        bytes[i] = runes[i] == SAM_GAP ? '_' : (char)runes[i];
    bytes[count] = 0;
    want_same("the rasp", bytes, text);
}

static void want_number(const char *what, uint64_t is, uint64_t should)
{
    if (is != should)
        fail(what, (uint32_t)is);
}

#endif
