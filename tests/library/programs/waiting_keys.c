/*
 * waiting_keys FOLLOW COUNT LINE: types so many runes while a command line is under way, and sends them once it is done. They stand behind
 * one another if FOLLOW is 1, and far from each other if it is 0. Each is shown at once. It prints the host's text; where a call fails it
 * says which, and ends with status 1. What tests/library/overlay_speed counts the instructions of.
 */
#include "must.h"

#include <string.h>

enum { TAG = 1, COMMAND_FILE = 0 };

/* The text has a `b` as each hundredth rune, else `a`s; from one far place to the next it is a stride. */
enum { LENGTH = 20000, EVERY = 100, STRIDE = 7919 };

/* Goes on until nothing is left, or a lock holds an event back. */
static void go_on(sam_overlay *overlay)
{
    sam_did did;
    sam_splice splice;
    do {
        MUST(sam_overlay_step(overlay, &did));
        while (sam_overlay_next_splice(overlay, &splice) == SAM_OK)
            ;
    } while (did.step != SAM_STEP_IDLE && did.step != SAM_STEP_LOCKED);
}

/* Returns whether there was anything to carry up. */
static bool carry_up(sam_overlay *overlay, sam_host *host)
{
    uint8_t piece[4096];
    size_t count, all = 0;
    do {
        MUST(sam_overlay_take_out(overlay, piece, sizeof piece, &count));
        MUST(sam_host_feed(host, piece, count));
        all += count;
    } while (count > 0);
    return all > 0;
}

/* Returns whether there was anything to carry down. */
static bool carry_down(sam_overlay *overlay, sam_host *host)
{
    uint8_t piece[4096];
    size_t count, all = 0;
    do {
        MUST(sam_host_take_out(host, piece, sizeof piece, &count));
        MUST(sam_overlay_bring(overlay, piece, count));
        go_on(overlay);
        all += count;
    } while (count > 0);
    return all > 0;
}

/* Asks for an event, and has the host answer it. */
static void ask(sam_overlay *overlay, sam_host *host, sam_event_kind kind, uint16_t tag)
{
    sam_event event = {.kind = kind, .number = LENGTH, .tag = tag, .version = 2};
    MUST(sam_overlay_bring_event(overlay, &event, NULL, 0));
    go_on(overlay);
    while (carry_up(overlay, host) | carry_down(overlay, host))
        ;
}

/* A host and an overlay that has opened and loaded its one file, and is about to run command lines on it. */
static void open_both(sam_host *host, sam_overlay *overlay)
{
    static uint8_t text[LENGTH];
    uint16_t tag;
    for (size_t i = 0; i < LENGTH; i++)
        text[i] = i % EVERY == EVERY - 1 ? 'b' : 'a';
    MUST(sam_host_new(host));
    MUST(sam_host_add_file(host, (const uint8_t *)"f", 1, text, sizeof text, &tag));
    MUST(sam_overlay_new(overlay));
    ask(overlay, host, SAM_EVENT_OFFER_VERSION, TAG);
    ask(overlay, host, SAM_EVENT_OPEN, TAG);
    ask(overlay, host, SAM_EVENT_LOAD, TAG);
    ask(overlay, host, SAM_EVENT_OPEN_CMD, COMMAND_FILE);
    ask(overlay, host, SAM_EVENT_WORK, TAG);
}

/* The line goes to the host; its answer is still to come. */
static void begin_line(sam_overlay *overlay, sam_host *host, const char *line)
{
    sam_event event = {.kind = SAM_EVENT_TYPE_CMD, .tag = COMMAND_FILE};
    MUST(sam_overlay_bring_event(overlay, &event, (const uint8_t *)line, strlen(line)));
    go_on(overlay);
    carry_up(overlay, host);
}

/* Sends all that waits, which nothing keeps back any more. */
static void send_all(sam_overlay *overlay, sam_host *host)
{
    sam_put put;
    do {
        MUST(sam_overlay_put_next(overlay, TAG, &put));
        go_on(overlay);
    } while (put == SAM_PUT_EDIT);
    carry_up(overlay, host);
}

static void print_text(sam_host *host)
{
    uint8_t piece[4096];
    size_t bytes;
    uint32_t place = 0, runes;
    do {
        MUST(sam_host_text(host, TAG, place, piece, sizeof piece, &bytes, &runes));
        fwrite(piece, 1, bytes, stdout);
        place += runes;
    } while (runes > 0);
}

int main(int argc, char **words)
{
    sam_host host = SAM_HOST_INIT;
    sam_overlay overlay = SAM_OVERLAY_INIT;
    sam_put put;
    if (argc != 4)
        return 2;
    uint64_t follow = strtoul(words[1], NULL, 10), count = strtoul(words[2], NULL, 10);
    open_both(&host, &overlay);
    begin_line(&overlay, &host, words[3]);
    for (uint64_t number = 0; number < count; number++) {
        uint32_t place = (uint32_t)(follow ? number : number * STRIDE % (LENGTH + number));
        MUST(sam_overlay_replace(&overlay, TAG, place, place, (const uint8_t *)"x", 1));
    }
    MUST(sam_overlay_put_next(&overlay, TAG, &put));
    if (count > 0 && put != SAM_PUT_NOT_FREE) {
        puts("the file is not locked");
        return 1;
    }
    carry_down(&overlay, &host);
    send_all(&overlay, &host);
    print_text(&host);
    return 0;
}
