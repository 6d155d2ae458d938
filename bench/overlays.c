/* overlays.c: a job of an overlay. */
#include "jobs.h"

enum { TAG = 1, LENGTH = 20000 };

/* Goes on until nothing is left, or a lock holds an event back. */
static void go_on(sam_overlay *overlay)
{
    sam_did did;
    sam_splice splice;
    do {
        WANT(sam_overlay_step(overlay, &did));
        while (sam_overlay_next_splice(overlay, &splice) == SAM_OK)
            ;
    } while (did.step != SAM_STEP_IDLE && did.step != SAM_STEP_LOCKED);
}

static void ask(sam_overlay *overlay, sam_event_kind kind)
{
    sam_event event = {.kind = kind, .number = LENGTH, .tag = TAG, .version = 2};
    WANT(sam_overlay_bring_event(overlay, &event, NULL, 0));
    go_on(overlay);
}

/* The bytes that are pending for the host. */
static struct bytes taken_of(sam_overlay *overlay)
{
    uint8_t piece[4096];
    struct bytes taken = {0};
    size_t count;
    do {
        WANT(sam_overlay_take_out(overlay, piece, sizeof piece, &count));
        add(&taken, piece, count);
    } while (count > 0);
    return taken;
}

/* Brings down all that the host has. */
static void bring_down(sam_overlay *overlay, sam_host *host)
{
    uint8_t piece[4096];
    size_t count;
    do {
        WANT(sam_host_take_out(host, piece, sizeof piece, &count));
        WANT(sam_overlay_bring(overlay, piece, count));
        go_on(overlay);
    } while (count > 0);
}

/* Has the host answer what was asked for, and loads the whole text. */
static void open_overlay(sam_overlay *overlay, sam_host *host)
{
    static const sam_event_kind asked[] = {SAM_EVENT_OFFER_VERSION, SAM_EVENT_OPEN, SAM_EVENT_LOAD};
    WANT(sam_overlay_new(overlay));
    for (size_t i = 0; i < sizeof asked / sizeof asked[0]; i++) {
        ask(overlay, asked[i]);
        feed_host(host, taken_of(overlay));
        bring_down(overlay, host);
    }
}

/* Types `size` runes while the file is locked: each behind the one before it, or at a place of its own. */
static void type_in(sam_overlay *overlay, uint32_t size, bool are_scattered)
{
    uint64_t state = 1;
    for (uint32_t i = 0; i < size; i++) {
        state = next_state(state);
        uint32_t place = are_scattered ? (uint32_t)(state >> 33) % (LENGTH + i + 1) : i;
        WANT(sam_overlay_replace(overlay, TAG, place, place, (const uint8_t *)"x", 1));
    }
}

/* Puts all edits that wait. */
static void put_all(sam_overlay *overlay)
{
    sam_put put;
    WANT(sam_overlay_put_next(overlay, TAG, &put));
    while (put == SAM_PUT_EDIT) {
        go_on(overlay);
        WANT(sam_overlay_put_next(overlay, TAG, &put));
    }
}

/* Types runes that are shown at once, while the file is being written, and sends them once it is free. What the host does isn't counted. */
static struct report sent_later(uint32_t size, bool are_scattered)
{
    sam_host host = SAM_HOST_INIT;
    sam_overlay overlay = SAM_OVERLAY_INIT;
    struct report found = {0};
    struct bytes sent;
    int64_t begin;
    new_host(&host, letters(LENGTH), 1);
    open_overlay(&overlay, &host);
    ask(&overlay, SAM_EVENT_WRITE);
    begin = nanoseconds();
    type_in(&overlay, size, are_scattered);
    found.took = nanoseconds() - begin;
    feed_host(&host, taken_of(&overlay));
    bring_down(&overlay, &host);
    begin = nanoseconds();
    put_all(&overlay);
    sent = taken_of(&overlay);
    found.took += nanoseconds() - begin;
    feed_host(&host, sent);
    found.check = check_host(&host, TAG, 0);
    return found;
}

struct report waiting(uint32_t size)
{
    return sent_later(size, false);
}

struct report scattered(uint32_t size)
{
    return sent_later(size, true);
}
